#!/usr/bin/env bash
# What the program writes, beside what Mercurial writes: the same commits by both, in turn in one repository, and over what can
# go wrong on a real disk. After each command Mercurial finds nothing wrong. Without `hg`, which is installed where that can be,
# all is skipped. The last line is 'N passed, M failed' or 'N passed, M failed, K skipped'.
set -u
here=$(cd "$(dirname "$0")" && pwd)
. "$here/with_hg.sh"
with_hg || { echo "0 passed, 0 failed, 1 skipped"; exit 0; }
. "$here/own_program.sh"
skipped=0
. "$here/check.sh"

# the profile, for both of the configurations below
cat >"$work/formats" <<END
[format]
usegeneraldelta = no
sparse-revlog = no
revlog-compression = zlib
use-share-safe = no
use-persistent-nodemap = no
use-dirstate-v2 = no
END
cat >"$work/hgrc" <<END
%include $work/formats
[extensions]
hg_whole = $here/hg_whole.py
[ui]
interactive = no
timeout = 1
END
export HGRCPATH=$work/hgrc TZ=UTC

# ---- what a check looks at

nothing_wrong() { [ -z "$(hg verify --quiet 2>&1)" ]; }

# The program ends with this status and this last line.
ends() { # STATUS LINE COMMAND..
    local status=$1 line=$2 said ended
    shift 2
    said=$("$@" 2>/dev/null)
    ended=$?
    echo "status $ended: $said"
    [ "$ended" = "$status" ] && [ "$(tail -n 1 <<<"$said")" = "$line" ]
}

# A checksum of all files, their names and their links.
sum_of() { (cd "$1" && find . -printf '%p %y %l\n' | sort && find . -type f -print0 | sort -z | xargs -0r sha1sum) | sha1sum; }

# The command ends with this status and line, and leaves every file as it was.
refused() { # STATUS LINE COMMAND..
    local before
    before=$(sum_of .hg)
    ends "$@" && [ "$before" = "$(sum_of .hg)" ]
}

# Both say the same of the history and of each file of the last changeset.
same_answers() {
    local path
    cmp <("$program" log | cut -f 1-6) <(hg log --hidden --template '{rev}\t{node}\t{p1rev}\t{p2rev}\t{date|hgdate}\n' | tr ' ' '\t') || return 1
    cmp <("$program" files tip | cut -d ' ' -f 3-) <(hg manifest -r tip) || return 1
    hg manifest -r tip | while IFS= read -r path; do
        cmp <("$program" cat tip "$path") <(hg cat -r tip "path:$path") || return 1
    done
}

# The stores of both folders have the same files with the same bytes. The lines of lists may stand in another order.
same_store() { # OURS THEIRS
    local file
    diff <(cd "$1/.hg/store" && find . -name '*.[id]' | sort) <(cd "$2/.hg/store" && find . -name '*.[id]' | sort) || return 1
    (cd "$1/.hg/store" && find . -name '*.[id]') | while IFS= read -r file; do
        cmp "$1/.hg/store/$file" "$2/.hg/store/$file" || return 1
    done || return 1
    for file in store/fncache store/phaseroots bookmarks; do
        cmp <(sort "$1/.hg/$file" 2>/dev/null) <(sort "$2/.hg/$file" 2>/dev/null) || return 1
    done
}

# ---- the same commits by both

# The files of the step with this number, in the current folder. Of a file whose only text is empty, kept in a data file of its own,
# Mercurial warns that it is not in its list, in its own stores too; so one is emptied here that had a byte before.
change_files() {
    mkdir -p src/deep "space here"
    echo "line of $1" >>src/main.c
    echo "$1" >"src/deep/of $(($1 % 3))"
    printf '\0%s' "$1" >"space here/Zero.i"
    # one whose filelog is separate, beside those that are inline
    [ "$1" = 2 ] && ln -s main.c src/link && head -c 4097 /dev/zero | tr '\0' z >src/large
    [ "$1" = 4 ] && echo more >>src/large
    [ "$1" = 3 ] && { rm "src/deep/of 1"; chmod +x src/main.c; }
    [ "$1" = 4 ] && printf 'ü\n' >"$(printf 'long%.0s' {1..40}).txt"
    [ "$1" = 5 ] && printf '\1\nnot metadata' >src/marker && printf x >src/emptied
    [ "$1" = 6 ] && : >src/emptied
    return 0
}

commit_ours() { # NUMBER
    "$here/../bin/record" -m "step $1"$'\n\nmore of it' -u 'Ada <ada@example.org>' -d "$((1000 + $1)) -3600" . | "$program" commit
}

commit_theirs() { # NUMBER
    hg --quiet commit --addremove -m "step $1"$'\n\nmore of it' -u 'Ada <ada@example.org>' -d "$((1000 + $1)) -3600"
}

both() { # NUMBER: each commits, and the node is the same
    local ours
    (cd ours && change_files "$1") && (cd theirs && change_files "$1" && commit_theirs "$1") || return 1
    ours=$(cd ours && commit_ours "$1") || return 1
    [ "$ours" = "$(hg -R theirs log -r tip --template '{rev}:{node}')" ]
}

cd "$work" || exit 1
mkdir ours && hg init theirs
check "a repository is made" ends 0 "" env -C ours "$program" init
check "in which Mercurial finds nothing wrong" env -C ours hg verify
for number in 1 2 3 4 5 6; do
    check "both commit step $number" both "$number"
    check "nothing is wrong with step $number" env -C ours bash -c "[ -z \"\$(hg verify --quiet 2>&1)\" ]"
done
check "the stores are the same" same_store ours theirs

# ---- the same copies, renames and branches by both

# The files of the step with this number, in the current folder: a copy, two renames of which one has another body, and a copy at
# a path that an earlier changeset had.
copy_files() {
    case $1 in
        1) mkdir src && echo a >a && echo b >src/b && head -c 4097 /dev/zero | tr '\0' z >large ;;
        2) cp a copied ;;
        3) mv src/b src/c && mv large moved && echo more >>moved ;;
        4) cp copied src/b ;;
        5) echo more >>src/b ;;
    esac
}

# The copies of a step, and the branch that it is on.
copies_of() { case $1 in 2) echo a:copied ;; 3) printf 'src/b:src/c\nlarge:moved\n' ;; 4) echo copied:src/b ;; esac; }
branch_of() { case $1 in 3 | 4) echo side ;; *) echo default ;; esac; }

copies_ours() {
    local words=()
    while IFS= read -r copy; do words+=(--copy "$copy"); done < <(copies_of "$1")
    "$here/../bin/record" -m "step $1" -u ada -d "$1 0" --branch "$(branch_of "$1")" "${words[@]}" . | "$program" commit
}

copies_theirs() {
    hg --quiet branch --force "$(branch_of "$1")"
    copies_of "$1" | while IFS=: read -r source copy; do
        if [ -e "$source" ]; then hg copy --after "$source" "$copy"; else hg rename --after "$source" "$copy"; fi
    done
    hg --quiet commit --addremove -m "step $1" -u ada -d "$1 0"
}

both_copy() { # NUMBER: each commits, and the node is the same
    local ours
    (cd copies && copy_files "$1") && (cd their-copies && copy_files "$1" && copies_theirs "$1") || return 1
    ours=$(cd copies && copies_ours "$1") || return 1
    [ "$ours" = "$(hg -R their-copies log -r tip --template '{rev}:{node}')" ]
}

mkdir copies && hg init their-copies
check "a repository of copies is made" ends 0 "" env -C copies "$program" init
for number in 1 2 3 4 5; do check "both commit step $number with its copies" both_copy "$number"; done
check "the stores with copies are the same" same_store copies their-copies
says() { [ "$(hg -R copies "${@:2}")" = "$1" ]; } # TEXT WORDS: what Mercurial says of the program's
check "Mercurial sees the copies and the branches" says $'0 default\n1 default a>copied\n2 side large>moved src/b>src/c\n3 side copied>src/b\n4 default' \
    log -r 'all()' --template '{rev} {branch}{file_copies % " {source}>{name}"}\n'
check "it follows a file through them" says $'4\n3\n1\n0' log --follow --template '{rev}\n' copies/src/b
check "it knows a copy's source" env -C copies bash -c '[ "$(hg debugrename -r 3 src/b)" = "src/b renamed from copied:37d9b5d994eab34eda9c16b195ace52c7b129980" ]'
check "it lists the branches" says $'default 4\nside 3' branches --closed --template '{branch} {rev}\n'
check "nothing is wrong with copies" env -C copies bash -c '[ -z "$(hg verify --quiet 2>&1)" ] && [ "$("$0" verify)" = "checked 5 changesets, 6 filelogs, 0 findings" ]' "$program"
cd copies || exit 1
copy_refused() { refused "$1" "$2" bash -c '"$1" -m m "${@:3}" . | "$2" commit' - "$here/../bin/record" "$program" "${@:3}"; }
check "a copy of nothing" copy_refused 23 "abort: unknown path" --copy none:src/b
check "a copy over a file" copy_refused 32 "abort: copy over src/b" --copy a:src/b
check "a copy of a file that the second parent alone has" copy_refused 23 "abort: unknown path" --parent 0 --parent tip --copy copied:src/c
check "a source before a path" copy_refused 23 "abort: unknown path" --parent null --copy a:src/b
cd ..

cd ours || exit 1
check "both say the same" same_answers
check "Mercurial finds no change in the folder" bash -c '[ -z "$(hg status 2>&1)" ]'

# ---- in turn

change_files 7
check "Mercurial commits on top" commit_theirs 7
check "both say the same of Mercurial's commit" same_answers
change_files 8
check "and the program on top of that" commit_ours 8
check "nothing is wrong" nothing_wrong
check "both say the same of the program's commit" same_answers
check "the same again changes nothing" refused 13 "abort: nothing changed (7)" commit_ours 8

# ---- phases and bookmarks

phase_is() { [ "$(hg phase -r "$1")" = "$1: $2" ] && [ "$("$program" phase "$1")" = "$2" ]; }
check "a phase moves down" ends 0 "3 public" "$program" phase 3 public
check "with the ancestors" phase_is 1 public
check "and no other" phase_is 4 draft
check "a phase moves up by force" ends 0 "5 secret" "$program" phase --force 5 secret
check "with the descendants" phase_is 7 secret
check "and only by force" refused 26 "abort: phase of 2 needs --force" "$program" phase 2 draft
check "nothing changes" refused 13 "abort: nothing changed (3)" "$program" phase 3 public
check "a bookmark is set" ends 0 "main 6" "$program" bookmark main 6
check "another by its name" ends 0 "other name 6" "$program" bookmark "other name" main
check "Mercurial knows both" bash -c '[ "$(hg bookmarks --template "{bookmark} {rev}\n")" = "main 6"$'"'\n'"'"other name 6" ]'
check "one is deleted" ends 0 "main removed" "$program" bookmark --delete main
check "and once" refused 12 "abort: unknown revision" "$program" bookmark --delete main
check "a name that no bookmark has does not fit" refused 28 "abort: bad word 1" "$program" bookmark tip 0
check "nothing is wrong" nothing_wrong

# ---- who else writes

ln -s elsewhere:1 .hg/wlock
check "Mercurial holds the folder's lock" refused 10 "abort: lock held by elsewhere:1" "$program" phase 4 public
rm .hg/wlock
ln -s elsewhere:2 .hg/store/lock
check "Mercurial holds the store's lock" refused 10 "abort: lock held by elsewhere:2" "$program" phase 4 public
rm .hg/store/lock
printf hg-store >.hg/store/lock
check "Mercurial waits for a lock of the program" bash -c '! said=$(hg --config ui.timeout=1 phase --public -r 4 2>&1) && grep -q "lock held by .hg-store" <<<"$said"'
rm .hg/store/lock
: >.hg/store/journal
check "a journal stands" refused 11 "abort: abandoned transaction found" "$program" phase 4 public
rm .hg/store/journal
cp -r ../theirs ../killed && cd ../killed && echo more >>src/main.c || exit 1
cat >"$work/killed.py" <<END
import os, signal
from mercurial import extensions, transaction
def uisetup(ui):
    extensions.wrapfunction(transaction.transaction, "close", lambda original, self: os.kill(os.getpid(), signal.SIGKILL))
END
(hg --config extensions.killed="$work/killed.py" commit -m killed -u u -d '0 0'; true) >/dev/null 2>&1
check "Mercurial is killed within its transaction, before it wrote its list of backups" [ -s .hg/store/journal -a ! -s .hg/store/journal.backupfiles ]
check "the program does not undo it" refused 15 "abort: damaged store/journal.backupfiles: journal 2 0" "$program" recover
check "Mercurial does" hg recover
check "and its locks are removed" ends 1 "no interrupted transaction available" "$program" recover
check "then all is as before" bash -c '[ "$(hg log -r tip --template "{desc|firstline}")" = "step 6" ] && [ "$("$0" bookmark new tip)" = "new 5" ]' "$program"
check "nothing is wrong" nothing_wrong
cp -r ../theirs ../unnameable && cd ../unnameable || exit 1
printf kept >.hg/journal.backup.dirstate
printf 'fncache\0%d\n' "$(stat -c %s .hg/store/fncache)" >.hg/store/journal
printf '2\nplain\0\377\0journal.backup.dirstate\0000\n' >.hg/store/journal.backupfiles
check "a file whose name is not UTF-8 cannot be given its backup" refused 17 "abort: recovery unfinished" "$program" recover
check "nor the second time" refused 17 "abort: recovery unfinished" "$program" recover
check "Mercurial does it" hg recover
check "and the backup is removed" ends 1 "no interrupted transaction available" "$program" recover
check "as it was left over" [ ! -e .hg/journal.backup.dirstate ]
check "nothing is wrong" nothing_wrong
cd ../ours || exit 1

# ---- second names

cp -al .hg ../second
before=$(sum_of ../second)
change_files 9
check "a commit where each file has a second name" commit_ours 9
check "leaves the files of the other names" [ "$before" = "$(sum_of ../second)" ]
check "nothing is wrong" nothing_wrong

# ---- a disk that takes no more

# A file of the limit's length and more cannot be written; the limit is in blocks of 1,024 bytes.
limited() { (trap '' XFSZ; ulimit -f "$1"; shift; "$@"); }
change_files 10
commit_limited() { "$here/../bin/record" -m full . >"$work/record"; limited "$1" "$program" commit <"$work/record"; }
for blocks in 0 1 2; do
    check "no file may have more than $blocks blocks" refused 16 "abort: file operation failed" commit_limited "$blocks"
    check "nothing is wrong behind it" nothing_wrong
done
if [ "$(id -u)" = 0 ] && command -v setpriv >/dev/null; then
    as_nobody() { setpriv --reuid=65534 --regid=65534 --clear-groups "$@"; }
    check "a folder that may not be written" refused 16 "abort: file operation failed" as_nobody "$program" phase 6 public
else
    skipped=$((skipped + 1))
fi

# ---- the input

record=$("$here/../bin/record" -m cut -u u -d '0 0' . | base64 -w 0)
size=$(base64 -d <<<"$record" | wc -c)
input() { base64 -d <<<"$record" | head -c "$1" | "$program" commit; }
check "no input" refused 14 "abort: bad input at 0" "$program" commit </dev/null
check "an input that is cut" refused 14 "abort: bad input at $((size - 1))" input $((size - 1))
behind() { { base64 -d <<<"$record"; printf x; } | "$program" commit; }
check "an input that goes on" refused 14 "abort: bad input at $size" behind
closed() { "$program" commit <&-; }
before=$(sum_of .hg)
closed >/dev/null 2>&1
check "an input that is closed changes nothing" [ "$before" = "$(sum_of .hg)" ]
check "an input that is a folder" refused 18 "abort: input failed" "$program" commit <.
cd ..

# ---- in turn with Mercurial as it is, which keeps small filelogs inline and splits them as they grow

cat >"$work/plainrc" <<END
%include $work/formats
[format]
maxchainlen = -1
[storage]
revlog.zlib.level = 0
END
plain_theirs() { HGRCPATH=$work/plainrc commit_theirs "$1"; }
no_findings() { "$program" verify >/dev/null; }
mkdir turns && cd turns && "$program" init || exit 1
for number in 1 2 3 4 5 6 7 8; do
    change_files "$number"
    # past the length up to which Mercurial keeps a filelog inline, by each of both in turn
    head -c $((number * 30000)) /dev/zero | tr '\0' "$number" >growing
    case $number in
    1 | 4 | 5 | 8) check "the program commits turn $number" commit_ours "$number" ;;
    *) check "Mercurial as it is commits turn $number" plain_theirs "$number" ;;
    esac
    check "nothing is wrong with turn $number" nothing_wrong
    check "and nothing is found" no_findings
done
check "both say the same of all turns" same_answers
cd ..

# ---- sizes

mkdir large && cd large && "$program" init || exit 1
many() { python3 -c '
import sys
out = sys.stdout.buffer
out.write(b"commit\nuser u\ndate 0 0\ndesc 1\nm\n")
for k in range(20000):
    body = b"%d\n" % k
    out.write(b"file - %d d%03d/f%05d\n%s\n" % (len(body), k // 100, k, body))
out.write(b"end\n")' | "$program" commit; }
check "20,000 files" many
check "are all there" bash -c '[ "$(hg manifest | wc -l)" = 20000 ]'
long=$(printf 'p/%.0s' {1..511})ab
huge() { { printf 'commit\nparent null\nuser u\ndate 0 0\ndesc 0\n\nfile - 16777216 %s\n' "$long"; head -c 16777216 /dev/zero; printf '\nend\n'; } | "$program" commit; }
check "a path of 1,024 bytes and a body of 16 MiB" huge
check "is there" bash -c '[ "$(hg cat -r tip "path:'"$long"'" | wc -c)" = 16777216 ]'
check "nothing is wrong with both" nothing_wrong
cd ..

# ---- a file that stands where a new one is to be

mkdir way && cd way && "$program" init && mkdir .hg/store/data && printf xyz >.hg/store/data/a.i || exit 1
in_the_way() { printf 'commit\nuser u\ndate 0 0\ndesc 0\n\nfile - 1 a\nx\nend\n' | "$program" commit; }
check "a file in the way" refused 34 "abort: file in the way store/data/a.i" in_the_way
printf xyz >.hg/store/data/b.d
beside_inline() {
    printf 'commit\nuser u\ndate 0 0\ndesc 0\n\nfile - 1 b\nx\nend\n' | "$program" commit &&
        [ "$("$program" cat 0 b)$(cat .hg/store/data/b.d)" = xxyz ] && nothing_wrong
}
check "a file where an inline filelog has none" beside_inline
printf xyz >.hg/store/data/c.d
separate() { printf 'commit\nuser u\ndate 0 0\ndesc 0\n\nfile - 4097 c\n%04097d\nend\n' 0 | "$program" commit; }
check "a file where a separate filelog has its data" refused 34 "abort: file in the way store/data/c.d" separate
printf xyz >.hg/store/data/d
below_file() { printf 'commit\nuser u\ndate 0 0\ndesc 0\n\nfile - 1 d/a\nx\nend\n' | "$program" commit; }
check "a file where a folder has to be" refused 16 "abort: file operation failed" below_file
check "a repository is made once" refused 25 "abort: repository exists" "$program" init
cd ..

# ---- a store that a group shares

mkdir shared && cd shared && "$program" init && chmod 2770 .hg .hg/store || exit 1
shares() { printf 'commit\nuser u\ndate 0 0\ndesc 0\n\nfile - 1 d/e\nx\nend\n' | "$program" commit; }
check "a commit in a store that a group shares" shares
check "whose new folders are the group's" [ "$(find .hg/store -mindepth 1 -type d -printf '%m\n' | sort -u)" = 2770 ]
check "and so are its new files" [ "$(find .hg/store -type f -printf '%m\n' | sort -u)" = 660 ]

[ "$skipped" = 0 ] && echo "$passed passed, $failed failed" || echo "$passed passed, $failed failed, $skipped skipped"
[ "$failed" = 0 ]

#!/usr/bin/env bash
# Folders that bin/record records, that the program commits and bin/checkout lays out again: each comes out as it was. What cannot
# be recorded is refused by name, with nothing printed. The examples of a commit by hand and of a crash in README.md are run as they stand there.
# The last line is 'N passed, M failed'.
set -u
here=$(cd "$(dirname "$0")" && pwd)
"$here/../bin/hg_store" --build >/dev/null || exit 1
PATH=$(cd "$here/../bin" && pwd):$PATH
export HG_STORE_TOLD=yes # the examples show what stands on standard error

work=$(mktemp -d) || exit 1
trap 'rm -rf "$work"' EXIT
cd "$work" || exit 1
. "$here/check.sh"

list() { (cd "$1" && find . -path ./.hg -prune -o ! -type d -printf '%p %y %l %m\n' | sort); }
commit_folder() { record -m text -u user -d '0 0' "$@" | hg_store commit; }
laid_again() { # REV FOLDER
    rm -rf again && checkout "$1" again && diff -r --no-dereference --exclude=.hg "$2" again && diff <(list "$2") <(list again)
}

hg_store init || exit 1
mkdir -p tree/sub/deep "tree/with space" tree/.hidden
printf 'a\n' >tree/a
: >tree/sub/empty
head -c 100000 /dev/urandom >tree/sub/deep/random
printf '#!/bin/sh\n' >tree/run && chmod +x tree/run
ln -s ../a tree/sub/link && ln -s nowhere tree/dangling
printf 'ü' >"tree/with space/naïve"
printf x >tree/.hidden/file
printf 'file - 1 a\nx\nend\n' >tree/looks-like-a-record
mkdir tree/.hg && printf no >tree/.hg/left-out
check "a folder is committed" commit_folder tree
check "and laid again" laid_again tip tree
rm -r tree/sub && printf b >tree/b
check "changed, it is committed" commit_folder --bookmark marked --phase secret tree
check "and laid again by its bookmark" laid_again marked tree
check "its phase is the one asked for" [ "$(hg_store phase marked)" = secret ]
check "the one before is laid, too" checkout 0 first
check "with what was removed" [ -L first/sub/link ]
check "on another parent" commit_folder --parent 0 --parent 1 -m merge tree
check "which both are parents" bash -c '[ "$(hg_store log | head -n 1 | cut -f 3,4)" = "0	1" ]'

refused() { # WORDS COMMAND..: nothing on standard output, these words on standard error
    local words=$1 out
    shift
    out=$("$@" 2>"$work/refusal") && return 1
    cat "$work/refusal"
    [ -z "$out" ] && grep -qF -- "$words" "$work/refusal"
}
mkdir bad && mkfifo bad/pipe
check "a pipe" refused "pipe is neither a file nor a symbolic link" record -m m bad
rm bad/pipe && printf x >"bad/$(printf 'a\nb')"
check "a line break" refused "has a line break" record -m m bad
rm -r bad && mkdir -p bad/sub/.hg && printf x >bad/sub/.hg/x
check "a store within" refused "has a part .hg" record -m m bad
rm -r bad && mkdir -p bad/.HG && printf x >bad/.HG/x
check "a store in capitals" refused "has a part .hg" record -m m bad
rm -r bad && mkdir bad && truncate -s 16777217 bad/large
check "a body that is too large" refused "has more than 16777216 bytes" record -m m bad
check "no folder" refused "missing is no folder" record -m m missing
check "a user that is not UTF-8" refused "a user that is not UTF-8" record -m m -u "$(printf '\377')" tree
check "a bookmark without a name" refused "a bookmark has a name" record -m m --bookmark "" tree
rm -r bad && mkdir bad && for number in {1..16}; do truncate -s 16777216 "bad/$number"; done
check "a record that is too long" refused "the record of all files would have more than 268435456 bytes" record -m m bad
check "a date that is none" refused "a date is" record -m m -d yesterday tree
check "a folder that stands" refused "tree: File exists" checkout tip tree
check "a name that names nothing" refused "abort: unknown revision" checkout nothing new
check "which makes no folder" [ ! -e new ]
laying() { python3 -c 'import runpy, sys; runpy.run_path(sys.argv[1])["check"]([path.encode() for path in sys.argv[2:]])' "$here/../bin/checkout" "$@"; }
check "a file below a link or a file" refused "a/b lies below a file" laying a a-b a/b
check "a file outside" refused "../b cannot stand in a folder" laying a ../b
mkdir odd && printf x >"odd/$(printf 'caf\351')"
check "a path that is not UTF-8 is committed" commit_folder --parent null odd
check "and cannot be laid" refused "is not UTF-8" checkout tip new
check "which makes no folder either" [ ! -e new ]

# A commit of ordinary size, into a repository of its own.
mkdir -p usual/files/src && cd usual && hg_store init || exit 1
for number in {1..300}; do echo "$number" >"files/src/f$number"; done
chmod +x files/src/f7
usual() { record -m $'one\ntwo' -u 'Ada Lovelace <ada@example.org>' -d '1700000000 -3600' --bookmark main files | hg_store commit; }
check "a commit of ordinary size" usual
check "nothing is wrong with it" [ "$(hg_store verify --jobs 4)" = "checked 1 changesets, 300 filelogs, 0 findings" ]
check "it is the one head" [ "$(hg_store heads | wc -l)" = 1 ]
check "and the one parent" [ "$(hg_store parents | wc -l)" = 1 ]
rm .hg/store/data/src/f99.i
check "a file of it cannot be read" refused "abort: damaged store/data/src/f99.i" checkout main half
check "which leaves nothing behind" [ "$(echo half*)" = 'half*' ]
cd ..

# Records of branches and copies whose form breaks, and where: at the line that does not fit. The lines before these have 23 bytes, and
# those up to the files 31.
breaks_at() { # PLACE LINES: what stands behind the date
    [ "$(printf 'commit\nuser u\ndate 0 0\n%b' "$2" | hg_store commit 2>/dev/null)" = "abort: bad input at $1" ]
}
check "a branch before the bookmark" breaks_at 32 'branch x\nbookmark b\n'
check "two branches" breaks_at 32 'branch x\nbranch y\n'
check "a branch of digits alone" breaks_at 23 'branch 7\n'
check "a branch with a backslash" breaks_at 23 'branch a\\\\b\n'
check "a branch without a name" breaks_at 23 'branch \n'
check "a branch behind the description" breaks_at 31 'desc 0\n\nbranch x\n'
check "a source without a file" breaks_at 42 'desc 0\n\ncopyfrom a\nend\n'
check "two sources" breaks_at 42 'desc 0\n\ncopyfrom a\ncopyfrom b\nfile - 0 c\n\nend\n'
check "a source that is no path" breaks_at 31 'desc 0\n\ncopyfrom a//b\nfile - 0 c\n\nend\n'
check "a source that ends in the byte 1" breaks_at 31 'desc 0\n\ncopyfrom a\1\nfile - 0 c\n\nend\n'
check "a source behind its file" breaks_at 54 'desc 0\n\nfile - 0 c\n\ncopyfrom a\nend\n'
check "a cut behind a source" breaks_at 42 'desc 0\n\ncopyfrom a\n'
check "a file of a source out of order" breaks_at 54 'desc 0\n\nfile - 0 c\n\ncopyfrom a\nfile - 0 b\n\nend\n'

# A branch and a copy, with the nodes that Mercurial gives them.
mkdir -p copying/files && cd copying && hg_store init || exit 1
echo a >files/a
check "a changeset to copy from" [ "$(record -m a -u test -d '0 0' files | hg_store commit)" = 0:cb9a9f314b8b07ba71012fcdbc544b5a4d82ff5b ]
echo a >files/b
check "a copy" [ "$(record -m b -u test -d '60 0' --copy a:b files | hg_store commit)" = 1:ecb79b03f81bb90a7a34bef62bcb3e917c17e3c5 ]
check "its text has a block of 62 bytes" [ "$(stat -c %s .hg/store/data/b.i)" = 129 ]
check "which is no part of its body" [ "$(hg_store cat tip b)" = a ]
cd ..
check "a branch" bash -c 'mkdir side && cd side && hg_store init && mkdir files && echo a >files/a && record -m a -u test -d "0 0" files | hg_store commit && echo b >files/b && [ "$(record -m b -u test -d "60 0" --branch side files | hg_store commit)" = 1:89c35e91dd0767fdc86032f5e4df2e08b8549b05 ]'
check "a copy of no file" refused "copy z is none of the files" record -m m --copy a:z copying/files
check "a copy of two files" refused "b is a copy of two files" record -m m --copy a:b --copy b:b copying/files
check "a copy without a path" refused "a copy is SOURCE:PATH" record -m m --copy a copying/files
check "a branch without a name to record" refused "a branch has a name" record -m m --branch "" copying/files

# Two folders in one import, each on the one before; the same two by commits have the same nodes.
mkdir -p several/old several/new by-commits && echo 1 >several/old/a && echo 2 >several/new/a
cd several && hg_store init || exit 1
imported=$(record -m one -m two -u u -d '0 0' --parent null old new | hg_store import)
cd ../by-commits && hg_store init || exit 1
record -m one -u u -d '0 0' --parent null ../several/old | hg_store commit >/dev/null
check "answer the node of the second commit" [ "$(record -m two -u u -d '0 0' ../several/new | hg_store commit)" = "$imported" ]
cd ..
check "two messages for three folders" refused "one message for all folders, or one for each" record -m a -m b tree tree tree
check "a copy among folders" refused "a copy is said of one folder" record -m a --copy a:b tree tree

# Examples of README.md, each behind the line that begins so: the commands behind '$ ', and what they write. They are run one after another in one folder.
example() { # FIRST WORDS
    sed -n "/^$1/,/^[A-Z#\`]/p" "$here/../README.md" | sed -n 's/^    //p' >"$work/example"
    sed -n 's/^\$ //p' "$work/example" >"$work/commands"
    [ -s "$work/commands" ] && (cd "$work/by-hand" && bash ../commands 2>&1) | diff <(sed '/^\$ /d' "$work/example") -
}
mkdir "$work/by-hand"
check "the example of a commit in README.md" example 'By hand:'
check "and that of a crash" example 'After a crash:'

# The demonstration, with the nodes that Mercurial gives these changesets.
shown() { demo | grep -qxF "$1"; }
check "the demonstration's first changeset" shown 0:53be64185a1c6d060c1788036f8c528875660394
check "and its second" shown 1:ebed334fbe84c5d4273a8ddb55772e2fdea29b49

echo "$passed passed, $failed failed"
[ "$failed" = 0 ]

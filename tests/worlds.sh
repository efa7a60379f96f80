#!/usr/bin/env bash
# Bad worlds: each line of the table lays one out in a new folder, runs the program there, and says which status and which
# line must come; on standard error the hint that docs/ANSWERS.md has for the status comes last, and nothing where there is
# none. No file may change, which a checksum of the whole folder before and after shows. The last line is 'N passed, M failed'.
set -u
here=$(cd "$(dirname "$0")" && pwd)
. "$here/own_program.sh"
passed=0 failed=0

# The store of a small repository that real Mercurial made.
lay_store() {
    mkdir .hg && cp -r "$here"/fixtures/separate/. .hg && rm -rf .hg/expected
}

# The store of a history of so many changesets.
lay_history() { python3 -Bc "import sys; sys.path.insert(0, '$here/../bench'); import log; log.write_store('.', $1)"; }

# The store of one changeset with this text, its escapes as Python reads them.
lay_text() {
    lay_history 1
    python3 -Bc "
import sys; sys.path.insert(0, '$here/../bench'); import log
index, data = log.revlog([b'$1'])
open('.hg/store/00changelog.i', 'wb').write(index)
open('.hg/store/00changelog.d', 'wb').write(data)"
}
header='0000000000000000000000000000000000000000\n' # a null manifest

# The store with a `requires` of so many bytes, all of known words.
lay_requires() {
    lay_store
    python3 -Bc "
words = b'dotencode\nfncache\nrevlogv1\nstore\n'
rest = $1 - len(words)
if rest % 2: words, rest = words + b'revlogv1\n', rest - 9
while rest % 6: words, rest = words + b'fncache\n', rest - 8
open('.hg/requires', 'wb').write(words + b'store\n' * (rest // 6))"
}

# The store with so many bookmarks, all on one changeset.
lay_bookmarks() {
    lay_store
    python3 -Bc "
for number in range($1): print('3f890414582f19f7c71622dda118938743e80f66 b%05d' % number)" >.hg/bookmarks
}

# The worlds. Each function lays its own in the current folder.
no_hg() { :; }
empty_hg() { mkdir .hg; }
hg_is_a_file() { echo text >.hg; }
whole_store() { lay_store; }
long_store() { lay_history 3000; } # its lines fill more than a pipe holds
just_a_piece() { lay_history 1024; } # whose index is read again behind its last byte
one_entry_more() { lay_history 1025; }
no_shape() { lay_text x; }
no_node() { lay_text 'x\nuser\n0 0\n\n'; }
no_date() { lay_text "${header}user\n0 50401\n\n"; }
no_order() { lay_text "${header}user\n0 0\nb\na\n\n"; }
surrogate() { lay_text "${header}user\n0 0\n\n\xed\xa0\x80"; }
fullest_requires() { lay_requires 65536; }
too_full_requires() { lay_requires 65537; }
most_bookmarks() { lay_bookmarks 10000; }
too_many_bookmarks() { lay_bookmarks 10001; }
unreadable_index() { lay_store && chmod 000 .hg/store/00changelog.i; }
unreadable_data() { lay_store && chmod 000 .hg/store/00changelog.d; }
folder_as_index() { lay_store && rm .hg/store/00changelog.i && mkdir .hg/store/00changelog.i; }
folder_as_data() { lay_store && rm .hg/store/00changelog.d && mkdir .hg/store/00changelog.d; }
file_as_store() { lay_store && rm -r .hg/store && echo text >.hg/store; }
cut_data() { lay_store && truncate -s -1 .hg/store/00changelog.d; }
cut_entry() { lay_store && printf '\377%.0s' $(seq 63) >>.hg/store/00changelog.i; }
other_byte() { lay_store && printf X | dd of=.hg/store/00changelog.d bs=1 seek=10 conv=notrunc status=none; }
pipe_as_index() { lay_store && rm .hg/store/00changelog.i && mkfifo .hg/store/00changelog.i; }
pipe_as_data() { lay_store && rm .hg/store/00changelog.d && mkfifo .hg/store/00changelog.d; }
pipe_as_requires() { mkdir .hg && mkfifo .hg/requires; }
device_as_index() { lay_store && ln -sf /dev/zero .hg/store/00changelog.i; }
socket_as_index() {
    lay_store && rm .hg/store/00changelog.i
    python3 -Bc "import socket; socket.socket(socket.AF_UNIX).bind('.hg/store/00changelog.i')"
}
link_to_index() { lay_store && mv .hg/store/00changelog.i other && ln -s "$PWD/other" .hg/store/00changelog.i; }
link_to_nowhere() { mkdir .hg && ln -s nowhere .hg/requires; }
folder_as_bookmarks() { lay_store && rm -f .hg/bookmarks && mkdir .hg/bookmarks; }
folder_as_roots() { lay_store && rm -f .hg/store/phaseroots && mkdir .hg/store/phaseroots; }
locked_by_mercurial() { lay_store && ln -s box:77 .hg/wlock && ln -s box:77 .hg/store/lock; }
left_journal() { lay_store && : >.hg/store/journal; }
begun_by_mercurial() { lay_store && : >.hg/store/journal && : >.hg/store/journal.backupfiles; }
link_as_lock() { lay_store && ln -s nowhere .hg/store/lock; }
link_as_working_lock() { lay_store && ln -s nowhere .hg/wlock; }
folder_as_journal() { lay_store && mkdir .hg/store/journal; }
folder_as_list() { lay_store && rm .hg/store/fncache && mkdir .hg/store/fncache; }
folder_as_new_file() { "$program" init && mkdir -p .hg/store/data/a.i; }
file_as_new_folder() { "$program" init && mkdir .hg/store/data && printf text >.hg/store/data/x; }
folder_as_lock() { lay_store && mkdir .hg/store/lock; }
unlisted_file() { lay_store && sed -i '/file6.txt.i$/d' .hg/store/fncache; }
large_body() {
    "$program" init || return
    { printf 'commit\nuser u\ndate 0 0\ndesc 0\n\nfile - 16777216 a\n' && head -c 16777216 /dev/zero && printf '\nend\n'; } | "$program" commit >/dev/null
}
file_in_the_way() { "$program" init && mkdir .hg/store/data && printf xyz >.hg/store/data/a.i; }
second_link() { lay_store && ln .hg/store/00changelog.i other-clone.i && ln .hg/store/00changelog.d other-clone.d; }

# Ways to run the program; each writes what the program says and returns its status.
plain() { "$program" "$@" </dev/null; }
as_nobody() { # root may read every file
    if [ "$(id -u)" = 0 ]; then setpriv --reuid=65534 --regid=65534 --clear-groups "$program" "$@" </dev/null; else plain "$@"; fi
}
in_time() { timeout 10 "$program" "$@" </dev/null; } # opening a pipe would wait for its other end
closed_output() { "$program" "$@" </dev/null >&-; }
full_output() { "$program" "$@" </dev/null >/dev/full; }
reader_gone() { # standard output is a pipe that nobody reads any more, and the signal for that is handled so
    local handled=$1 status
    shift
    status=$( { { sleep 0.2; env "$handled" "$program" "$@" </dev/null; echo $? >&3; } | :; } 3>&1)
    return "$status"
}
reader_gone_ignored() { reader_gone --ignore-signal=PIPE "$@"; }
reader_gone_default() { reader_gone --default-signal=PIPE "$@"; }
first_line() { # the reader of standard output goes once it has one line
    "$program" "$@" </dev/null | head -n 1
    return "${PIPESTATUS[0]}"
}
no_input() { "$program" "$@" <&-; } # standard input is closed
little_memory() { (ulimit -v 16000 && exec "$program" "$@" </dev/null); } # for less than a body of 16 MiB
one_file() { printf '%s\n' commit 'user u' 'date 0 0' 'desc 1' t 'file - 1 a' x end | "$program" "$@"; }
below_a_folder() { printf '%s\n' commit 'user u' 'date 0 0' 'desc 1' t 'file - 1 x/y' z end | "$program" "$@"; }
copied_over() { printf '%s\n' commit 'parent tip' 'user u' 'date 0 0' 'desc 1' t 'copyfrom src/d0/file0.txt' 'file - 1 src/d2/file2.txt' x end | "$program" "$@"; }
not_text() { "$program" "$@" $'\xff' </dev/null; }

# All names, kinds, modes, sizes and bytes of the current folder.
checksum() {
    { find . -printf '%P %y %m %n %s %i\n' | sort; find . -type f -print0 | sort -z | xargs -0r sha1sum; } | sha1sum
}

expected_log=$here/fixtures/separate/expected/000

check() { # WORLD WAY STATUS LINE WORDS..: LINE is the last line written, 'log' for the whole log, or '-' for nothing
    local world=$1 way=$2 want=$3 line=$4 status before after said hint
    shift 4
    rm -rf "$work/world" && mkdir "$work/world" && cd "$work/world" || exit 1
    "$world" || exit 1
    before=$(checksum)
    "$way" "$@" >"$work/out" 2>"$work/err"
    status=$?
    after=$(checksum)
    case $line in
    log) cmp -s "$work/out" "$expected_log" && said=log || said=$(tail -n 1 "$work/out") ;;
    -) [ -s "$work/out" ] && said=$(tail -n 1 "$work/out") || said=- ;;
    *) said=$(tail -n 1 "$work/out") ;;
    esac
    hint=$(sed -n "/^## Hints/,/^## Limits/s/^| $want | \(.*\) |$/hg_store: \1/p" "$here/../docs/ANSWERS.md")
    if [ "$status" = "$want" ] && [ "$said" = "$line" ] && [ "$before" = "$after" ] && [ "$(tail -n 1 "$work/err")" = "$hint" ]; then
        passed=$((passed + 1))
        return
    fi
    failed=$((failed + 1))
    echo "$world, $way: status $status ($want), last line '$said' ('$line')"
    [ "$before" = "$after" ] || echo "  files changed"
    head -3 "$work/err"
}

while IFS='|' read -r world way status line words; do
    # shellcheck disable=SC2086 # the words are split at spaces
    check $world $way $status "$line" $words
done <<'TABLE'
no_hg|plain|24|abort: not a repository|log
empty_hg|plain|24|abort: not a repository|log
hg_is_a_file|plain|24|abort: not a repository|log
whole_store|plain|0|log|log
whole_store|as_nobody|0|log|log
unreadable_index|as_nobody|16|abort: file operation failed|log
unreadable_data|as_nobody|16|abort: file operation failed|log
folder_as_index|plain|16|abort: file operation failed|log
folder_as_data|plain|16|abort: file operation failed|log
file_as_store|plain|15|abort: damaged dirstate: dirstate 6 0|log
pipe_as_index|in_time|16|abort: file operation failed|log
pipe_as_data|in_time|16|abort: file operation failed|log
pipe_as_requires|in_time|16|abort: file operation failed|log
device_as_index|in_time|16|abort: file operation failed|log
socket_as_index|in_time|16|abort: file operation failed|log
link_to_index|plain|0|log|log
link_to_nowhere|plain|27|abort: requirement nowhere|log
locked_by_mercurial|plain|0|log|log
locked_by_mercurial|plain|10|abort: lock held by box:77|bookmark new 0
folder_as_bookmarks|plain|16|abort: file operation failed|bookmarks
folder_as_bookmarks|plain|16|abort: file operation failed|bookmark new 0
folder_as_roots|plain|16|abort: file operation failed|phase 0
cut_data|plain|15|abort: damaged store/00changelog.i: revlog 5 15|log
cut_entry|plain|0|log|log
other_byte|plain|15|abort: damaged store/00changelog.i: revlog 7 0|log
second_link|plain|0|log|log
whole_store|closed_output|19|-|log
whole_store|full_output|19|-|log
whole_store|reader_gone_ignored|19|-|log
whole_store|reader_gone_default|19|-|log
no_hg|closed_output|19|-|log
whole_store|first_line|0|15	3f890414582f19f7c71622dda118938743e80f66	14	-1	1000000900	0	test	c15|log
long_store|first_line|19|2999	fd19f6ee30a769d7e8aa7f92e3a904baeefa2da6	2998	-1	1000179940	0	Ada Lovelace <ada@example.org>	change 2999 of many|log
just_a_piece|plain|0|1023 af544b750ab63f8fb09365120c0b549f9ab57611|heads
one_entry_more|plain|0|1024 5b00c63b95a50afe06dbeeb3ce1d2e7654d305cb|heads
no_shape|plain|15|abort: damaged store/00changelog.i: change 1 0|log
no_node|plain|15|abort: damaged store/00changelog.i: change 2 0|log
no_date|plain|15|abort: damaged store/00changelog.i: change 3 0|log
no_order|plain|15|abort: damaged store/00changelog.i: change 4 0|log
surrogate|plain|15|abort: damaged store/00changelog.i: change 5 0|log
fullest_requires|plain|0|log|log
too_full_requires|plain|20|abort: limit 9|log
most_bookmarks|plain|0|b09999	15	3f890414582f19f7c71622dda118938743e80f66|bookmarks
too_many_bookmarks|plain|20|abort: limit 6|bookmarks
no_hg|plain|24|abort: not a repository|heads
empty_hg|plain|24|abort: not a repository|heads
whole_store|plain|0|15 3f890414582f19f7c71622dda118938743e80f66|heads
unreadable_index|as_nobody|16|abort: file operation failed|heads
folder_as_index|plain|16|abort: file operation failed|heads
file_as_store|plain|15|abort: damaged dirstate: dirstate 6 0|heads
second_link|plain|0|15 3f890414582f19f7c71622dda118938743e80f66|heads
whole_store|closed_output|19|-|heads
whole_store|full_output|19|-|heads
whole_store|reader_gone_default|19|-|heads
whole_store|not_text|28|abort: bad word 1|log
whole_store|not_text|28|abort: bad word 0|
whole_store|not_text|28|abort: bad word 0|frobnicate
whole_store|plain|28|abort: bad word 0|
whole_store|plain|28|abort: bad word 1|log log
whole_store|plain|12|abort: unknown revision|phase nowhere
whole_store|plain|13|abort: nothing changed (0)|phase 0 public
whole_store|plain|14|abort: bad input at 0|commit
whole_store|no_input|18|abort: input failed|commit
whole_store|plain|23|abort: unknown path|cat 0 nowhere
whole_store|plain|25|abort: repository exists|init
whole_store|plain|26|abort: phase of 0 needs --force|phase 0 secret
whole_store|plain|33|abort: bad set at 1|revset (
whole_store|plain|1|no interrupted transaction available|recover
left_journal|plain|11|abort: abandoned transaction found|bookmark new 0
begun_by_mercurial|plain|11|abort: abandoned transaction found|bookmark new 0
begun_by_mercurial|plain|15|abort: damaged store/journal.backupfiles: journal 2 0|recover
link_as_lock|plain|10|abort: lock held by nowhere|bookmark new 0
link_as_working_lock|plain|10|abort: lock held by nowhere|bookmark new 0
folder_as_lock|plain|10|abort: lock held|bookmark new 0
folder_as_journal|plain|16|abort: file operation failed|bookmark new 0
folder_as_journal|plain|16|abort: file operation failed|recover
folder_as_list|one_file|16|abort: file operation failed|commit
folder_as_new_file|one_file|16|abort: file operation failed|commit
file_as_new_folder|below_a_folder|16|abort: file operation failed|commit
folder_as_lock|plain|1|leftover files remain|recover
cut_data|plain|15|abort: damaged store/00changelog.i: revlog 14 16|bookmark new 0
cut_data|one_file|15|abort: damaged store/00changelog.i: revlog 14 16|commit
unlisted_file|plain|29|checked 16 changesets, 8 filelogs, 1 findings|verify
large_body|little_memory|30|abort: out of memory|cat 0 a
whole_store|copied_over|32|abort: copy over src/d2/file2.txt|commit
file_in_the_way|one_file|34|abort: file in the way store/data/a.i|commit
TABLE
# 17 has its rows in tests/stops.py; 21 and 22 take two texts with one SHA-1
echo "$passed passed, $failed failed"
[ "$failed" = 0 ] && [ "$passed" -gt 0 ]

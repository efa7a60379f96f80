#!/usr/bin/env bash
# Plays each schedule in tests/play and compares what is written with the answer beside it, which was written by hand from
# docs/PLAY.md; then schedules that are none, each with the place of its fault; then a long one, whose time is shown.
set -u
cd "$(dirname "$0")/.." || exit 1
program=$(bin/hg_store --build) || exit 1
program=$(readlink -f "$program")
folder=$(mktemp -d) || exit 1
trap 'rm -rf "$folder"' EXIT
passed=0 failed=0

# NAME STATUS WANTED: what was written to $folder/got, with this status, is what the file WANTED has
judge() {
    if [ "$2" = "$status" ] && cmp -s "$folder/got" "$3"; then
        passed=$((passed + 1))
    else
        failed=$((failed + 1))
        echo "FAILED $1: status $status, wanted $2"
        diff "$folder/got" "$3" | head -5
    fi
}

for schedule in tests/play/*.schedule; do
    # the folder is no repository, and stays empty
    mkdir "$folder/empty"
    (cd "$folder/empty" && "$program" play) <"$schedule" >"$folder/got" 2>/dev/null
    status=$?
    judge "$schedule" 0 "${schedule%.schedule}.answer"
    if ! rmdir "$folder/empty" 2>/dev/null; then
        failed=$((failed + 1))
        echo "FAILED $schedule: it left files"
        rm -rf "$folder/empty"
    fi
done

# PLACE TEXT: not a schedule
faulty() {
    printf '%b' "$2" | "$program" play >"$folder/got" 2>/dev/null
    status=$?
    printf 'abort: bad input at %s\n' "$1" >"$folder/wanted"
    judge "bad input at $1: $2" 14 "$folder/wanted"
}
faulty 0 ''
faulty 0 'play 0\nend\n'
faulty 0 'play 65\nend\n'
faulty 7 'play 1\nload 1\nend\n'
faulty 14 'play 1\nload 0\nwrite 0\nend\n'
faulty 17 'play 1\nwrite\nend\n '
faulty 11 'play 1\nend\nfinish\n'
faulty 13 'play 1\nwrite\n'

# A second commit in pieces of one byte, a load behind each. It does 611 of these, and a rename, up to its publication: its backup of dirstate 58, the
# new dirstate 76, the list of backups 43, the journal 87, its rename, the new filelog 67, the list of filelogs 9, the manifest 87 and 64,
# the changelog 56 and 64. The last of them shows it, and nothing before that does.
{
    printf 'play 1\nbegin commit\ncommit\nuser test\ndate 0 0\ndesc 1\na\nfile - 2 a\na\n\nend\nfinish\n'
    printf 'begin commit\ncommit\nparent tip\nuser test\ndate 60 0\ndesc 1\nb\nfile - 2 a\na\n\nfile - 2 b\nb\n\nend\n'
    for _ in $(seq 640); do printf 'write 1\nload 0\n'; done
    printf 'end\n'
} >"$folder/pieces"
"$program" play <"$folder/pieces" >"$folder/out" 2>/dev/null
status=$?
{ grep '^loaded' "$folder/out" | uniq -c | tr -s ' '; grep '^answer' "$folder/out"; } >"$folder/got"
printf ' %s\n' '611 loaded 1' '29 loaded 2' >"$folder/wanted"
printf 'answer 0 %s\n' 0:cb9a9f314b8b07ba71012fcdbc544b5a4d82ff5b 1:37bdf19219c0e69b87d6371fabfaf5c3a63794d9 >>"$folder/wanted"
judge 'a commit in pieces of one byte' 0 "$folder/wanted"

# a word behind it does not fit
"$program" play more </dev/null >"$folder/got" 2>/dev/null
status=$?
echo 'abort: bad word 1' >"$folder/wanted"
judge 'play more' 28 "$folder/wanted"

# 100,000 parts of one operation
{
    printf 'play 1\nbegin commit\ncommit\nuser test\ndate 0 0\ndesc 1\na\nfile - 200000 a\n'
    head -c 200000 /dev/zero | tr '\0' x
    printf '\nend\n'
    # the operations before the data of the file
    printf 'write\nwrite\nwrite\nwrite\nwrite\n'
    yes 'write 1' | head -n 100000
    printf 'finish\nload 0\nend\n'
} >"$folder/long"
before=$(date +%s%N)
"$program" play <"$folder/long" >"$folder/got" 2>/dev/null
status=$?
after=$(date +%s%N)
if [ "$status" = 0 ] && [ "$(grep -c '^wrote$' "$folder/got")" = 100005 ] && [ "$(tail -n 1 "$folder/got")" = 'loaded 1' ]; then
    passed=$((passed + 1))
else
    failed=$((failed + 1))
    echo "FAILED the long schedule: status $status"
fi
echo "100,000 writes: $(((after - before) / 1000000)) ms"

echo "$passed passed, $failed failed"
[ "$failed" = 0 ]

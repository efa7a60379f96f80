#!/usr/bin/env bash
# Asks the program every question whose answer real Mercurial gave for the stores under tests/fixtures, or for those in the
# folders that are named, and compares what it writes and its status with that answer. Each difference is shown. The last line is
# 'N passed, M failed'.
set -u
built=' log heads files cat bookmarks parents phase '

here=$(cd "$(dirname "$0")" && pwd)
program=$("$here/../bin/hg_store" --build) || exit 1

work=$(mktemp -d) || exit 1
trap 'rm -rf "$work"' EXIT
passed=0 failed=0

# Asks one question of the store in the current folder.
ask() { # STORE NUMBER STATUS WORDS..
    local store=$1 number=$2 want=$3 status
    shift 3
    "$program" "$@" >"$work/out" 2>"$work/err" </dev/null
    status=$?
    if [ "$status" = "$want" ] && cmp -s "$work/out" "$folder/expected/$number"; then
        passed=$((passed + 1))
        return
    fi
    failed=$((failed + 1))
    echo "$store $number: '$*' ended with $status, wanted $want; wanted (<) and written (>):"
    diff <(head -c 2000 "$folder/expected/$number") <(head -c 2000 "$work/out") | head -10
    head -5 "$work/err"
}

if [ $# = 0 ]; then set -- "$here"/fixtures/*; fi
mapfile -t folders < <(realpath -- "$@")
for folder in "${folders[@]}"; do
    store=$(basename "$folder")
    [ -s "$folder/expected/index" ] || { echo "$store has no expected/index"; failed=$((failed + 1)); continue; }
    mkdir -p "$work/$store/.hg"
    cp -r "$folder"/. "$work/$store/.hg"
    rm -rf "$work/$store/.hg/expected"
    cd "$work/$store" || exit 1
    while IFS= read -r line; do
        mapfile -t -d $'\t' question < <(printf '%s\t' "$line") # an empty word is kept
        kind=${question[2]}
        if [[ $built != *" $kind "* ]]; then
            echo "$store: an unknown question: $kind"
            failed=$((failed + 1))
        else
            ask "$store" "${question[@]}"
        fi
    done <"$folder/expected/index"
done

echo "$passed passed, $failed failed"
[ "$failed" = 0 ] && [ "$passed" -gt 0 ]

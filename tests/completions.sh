#!/usr/bin/env bash
# What bash, zsh and fish complete, each asked in its own shell, as README.md has it, over a repository with a bookmark and a path with a space.
# zsh and fish are installed where they are missing and can be, else their rows are skipped.
# The last line is 'N passed, M failed', with the number skipped behind it.
set -u
here=$(cd "$(dirname "$0")" && pwd)
"$here/../bin/hg_store" --build >/dev/null || exit 1
PATH=$(cd "$here/../bin" && pwd):$PATH
completions=$(cd "$here/../completions" && pwd)

work=$(mktemp -d) || exit 1
trap 'rm -rf "$work"' EXIT
cd "$work" || exit 1
. "$here/check.sh"
skipped=0

hg_store init && mkdir tree && echo a >tree/a && echo b >'tree/b c' || exit 1
record -m text -u user -d '0 0' --bookmark marked tree | hg_store commit >/dev/null || exit 1

with_shell() {
    if ! command -v "$1" >/dev/null && [ "$(id -u)" = 0 ] && command -v apt-get >/dev/null; then
        { apt-get update -qq && DEBIAN_FRONTEND=noninteractive apt-get install -y -qq "$1"; } >/dev/null 2>&1
    fi
    command -v "$1" >/dev/null
}

# The line of README.md that has this shell complete.
line_for() { sed -n "s/^    $1\$ //p" "$here/../README.md"; }

# Each prints what may stand behind these words, one a line.
in_bash() {
    bash -c 'here=$PWD && cd "$0/.." && eval "$1" && cd "$here"; shift; COMP_WORDS=(hg_store "$@" ""); COMP_CWORD=$(($# + 1)); _hg_store; printf "%s\n" "${COMPREPLY[@]}"' "$completions" "$(line_for bash)" "$@"
}
in_zsh() {
    zsh -f -c 'compadd() { print -rl -- "${(@P)2}"; }; words=(hg_store "$@" ""); CURRENT=$#words; . $0/_hg_store' "$completions" "$@"
}
in_fish() {
    fish --no-config -c 'set here $PWD; cd $argv[1]/..; eval $argv[2]; cd $here; complete -C "hg_store $argv[3..] " | string replace -r "\t.*" ""' "$completions" "$(line_for fish)" "$@"
}

commands='--help --version bookmark bookmarks branches cat commit files gen heads import init log parents phase play recover revset session verify'

offers() { # SHELL EXPECTED WORD..
    local shell=$1 expected=$2
    shift 2
    # bash quotes a path for the line itself
    diff <(printf '%s\n' "$expected") <("in_$shell" "$@" | sed 's/\\ / /g' | sort | paste -sd '|')
}

for shell in bash zsh fish; do
    # fish offers no word that begins with a dot before one is typed
    first='.|' && [ "$shell" != fish ] || first=
    if ! with_shell "$shell"; then
        skipped=$((skipped + 7))
        continue
    fi
    check "$shell: commands" offers "$shell" "${commands// /|}"
    check "$shell: a revision" offers "$shell" "${first}marked|tip" files
    check "$shell: a revision, or --force" offers "$shell" "--force|${first}marked|tip" phase
    check "$shell: a phase" offers "$shell" 'draft|public|secret' phase tip
    check "$shell: a phase behind --force" offers "$shell" 'draft|public|secret' phase --force tip
    check "$shell: a path" offers "$shell" 'a|b c' cat tip
    check "$shell: a bookmark to delete" offers "$shell" 'marked' bookmark --delete
done

if command -v zsh >/dev/null; then
    # of whose folders it asks nothing here: they may be another user's
    check "zsh: its completion is found" env HOME="$work" zsh -f -c 'cd $0/.. && eval "$1 -u" && [[ $_comps[hg_store] == _hg_store ]]' "$completions" "$(line_for zsh)"
else
    skipped=$((skipped + 1))
fi

echo "$passed passed, $failed failed, $skipped skipped"
[ "$failed" = 0 ]

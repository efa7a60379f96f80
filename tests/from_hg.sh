#!/usr/bin/env bash
# Lays repositories that stock Mercurial made anew with bin/from_hg, and compares: Mercurial finds nothing wrong with the
# result, all nodes are the same, and every question is answered as Mercurial answers it of the first. What cannot be laid is
# refused, and nothing is left. Without `hg`, which is installed where that can be, all is skipped.
# The last line is 'N passed, M failed' or 'N passed, M failed, K skipped'.
set -u
here=$(cd "$(dirname "$0")" && pwd)
. "$here/with_hg.sh"
with_hg || { echo "0 passed, 0 failed, 1 skipped"; exit 0; }
"$here/../bin/hg_store" --build >/dev/null || exit 1

work=$(mktemp -d) || exit 1
trap 'rm -rf "$work"' EXIT
. "$here/check.sh"

nodes() { hg --repository "$1" --hidden log --rev 'all()' --template '{rev} {node} {p1node} {p2node} {phase}\n'; }
same_nodes() { cmp <(nodes "$1") <(nodes "$2"); }
nothing_wrong() { [ -z "$(hg --repository "$1" verify --quiet 2>&1)" ]; }
history() { hg --config extensions.hg_history="$here/hg_history.py" --repository "$@"; }

# The words are said.
says() { # WORDS SOURCE DESTINATION
    "$here/../bin/from_hg" "$2" "$3" 2>&1 | grep -qF "$1"
}

# The words are those of a refusal, and the folder is as it was.
refused() { # WORDS SOURCE DESTINATION
    local before
    before=$(ls -A "$(dirname "$3")")
    "$here/../bin/from_hg" "$2" "$3" && return 1
    [ "$before" = "$(ls -A "$(dirname "$3")")" ] || return 1
    grep -qF "$1" "$work/said"
}

cd "$work" || exit 1
for seed in 1 2 3; do
    hg init stock && history stock make-history "$seed" 40 2>"$work/made" || { cat "$work/made"; exit 1; }
    check "seed $seed is laid" "$here/../bin/from_hg" stock profile
    check "seed $seed has the same nodes" same_nodes stock profile
    check "nothing is wrong with seed $seed" nothing_wrong profile
    history stock expect-history profile/.hg/expected
    check "questions of seed $seed" "$here/mercurial.sh" profile/.hg
    tail -n 1 "$work/said"
    rm -rf stock profile
done

# A store that Mercurial makes alone, of whole and uncompressed texts, in inline revlogs: it is read as it stands.
alone=(--config format.use-share-safe=no --config format.sparse-revlog=no --config format.revlog-compression=zlib
    --config format.maxchainlen=-1 --config storage.revlog.zlib.level=0)
for seed in 4 5; do
    hg "${alone[@]}" init alone && history alone "${alone[@]}" make-history "$seed" 40 2>"$work/made" || { cat "$work/made"; exit 1; }
    check "the changelog of seed $seed is inline" cmp -n 4 alone/.hg/store/00changelog.i <(printf '\0\1\0\1')
    check "and it has no other file" test ! -e alone/.hg/store/00changelog.d
    history alone expect-history alone/.hg/expected
    check "questions of a store of Mercurial's, seed $seed" "$here/mercurial.sh" alone/.hg
    tail -n 1 "$work/said"
    rm -rf alone
done

# One without merges, which Mercurial records by rules of its own: nothing is found in it. Where the last byte of its changelog
# is another one, the second changeset cannot be read, and nothing names what is of it.
verifies() { # FOLDER STATUS LINE..
    local folder=$1 status=$2
    shift 2
    (cd "$folder" && "$here/../bin/hg_store" verify) >"$work/verified" 2>"$work/hints"
    [ $? = "$status" ] && cmp "$work/verified" <(printf '%s\n' "$@")
}
hg "${alone[@]}" init alone && (
    cd alone && echo a >a && hg "${alone[@]}" commit -qAm a && hg bookmark --inactive mark && echo b >>a && hg "${alone[@]}" commit -qm b
) || exit 1
check "the changelog is inline" cmp -n 4 alone/.hg/store/00changelog.i <(printf '\0\1\0\1')
check "nothing is found in a store of Mercurial's" verifies alone 0 "checked 2 changesets, 1 filelogs, 0 findings"
truncate -s -1 alone/.hg/store/00changelog.i && printf '?' >>alone/.hg/store/00changelog.i
check "a damaged inline changelog" verifies alone 29 "dirstate - 15" "store/00changelog.i 1 3" "store/00manifest.i 1 6" "store/data/a.i 1 6" \
    "checked 1 changesets, 1 filelogs, 4 findings"
rm -rf alone

check "the sample that proofs compute with" "$(head -n 1 "$(command -v hg)" | sed 's/^#! *//; s/ .*//')" "$here/check_samples.py"

hg init stock
check "an empty repository is laid" "$here/../bin/from_hg" stock empty
check "and is no more than that" test "$(cd empty && find . -type f)" = ./.hg/requires
hg init hidden && (cd hidden && echo a >a && hg commit -qAm a && echo b >b && hg commit -qAm b && hg update -q 0) &&
    hg --repository hidden --config experimental.evolution.createmarkers=yes debugobsolete "$(hg --repository hidden log -r 1 -T '{node}')" >"$work/made"
check "hidden changesets are laid, which is said" says "1 of them were hidden as obsolete" hidden shown
check "and they are shown" test "$(hg --repository shown log -r tip -T '{rev}')" = 1
check "what stands is kept" refused "stands already" stock empty
check "no folder for it" refused "there is no folder" stock missing/new
check "no repository" refused "repository missing not found" missing new
hg --config experimental.treemanifest=yes init trees
check "other manifests" refused "its requirement treemanifest" trees new
echo text >stock/file && hg --repository stock commit --quiet --addremove --message x --user "$(printf '\351')" --encoding latin-1
check "a user in another encoding is laid" "$here/../bin/from_hg" stock latin
rm -rf latin
hg init marked && (cd marked && echo a >a && hg commit -qAm a && hg bookmark märz) || exit 1
check "a bookmark beyond ASCII is laid where that is what is read" env HGENCODING=ascii "$here/../bin/from_hg" marked spring
check "with its bytes" grep -q ' märz$' spring/.hg/bookmarks
: >marked/.hg/store/data/a.i
check "a filelog without its revisions" refused "a lacks a revision that a manifest names" marked new
head -c 16777217 /dev/zero >stock/large && hg --repository stock commit --quiet --addremove --message large --user x 2>/dev/null
check "a body above the limit" refused "has more than 16777216 bytes" stock new

echo "$passed passed, $failed failed"
[ "$failed" = 0 ]

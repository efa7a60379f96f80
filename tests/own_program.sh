# For scripts that run the program as other users too: a copy of it in a folder $work that every user can enter and that goes at
# the end, under the path $program. The caller sets $here to the folder of the scripts.
program=$("$here/../bin/hg_store" --build) || exit 1
work=$(mktemp -d) || exit 1
trap 'chmod -R u+rwX "$work"; rm -rf "$work"' EXIT
chmod 755 "$work"
install -m 755 "$program" "$work/hg_store"
program=$work/hg_store

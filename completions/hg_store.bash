# Completion of hg_store for bash: commands, bookmarks as names of revisions, and the paths of a changeset.

# The words that can stand at the end of the line, one a line. An option stands before the names.
_hg_store_words() {
    local command=${COMP_WORDS[1]} place=$COMP_CWORD
    if [ "$place" = 1 ]; then
        printf '%s\n' log heads files cat bookmarks parents phase revset branches init commit import bookmark verify gen recover play session --help --version
        return
    fi
    [[ $command = phase && ${COMP_WORDS[2]} = --force && $place -gt 2 ]] && place=$((place - 1))
    [[ $command = bookmark && ${COMP_WORDS[2]} = --delete && $place -gt 2 ]] && command=delete place=$((place - 1))
    case $command.$place in
    files.2 | cat.2 | phase.2 | revset.2 | bookmark.3)
        printf '%s\n' tip .
        [ "$command.$COMP_CWORD" = phase.2 ] && echo --force
        HG_STORE_BUILD=no "${COMP_WORDS[0]}" bookmarks 2>/dev/null | cut -f 1
        ;;
    phase.3) printf '%s\n' public draft secret ;;
    bookmark.2 | delete.2)
        [ "$COMP_CWORD" = 2 ] && echo --delete
        HG_STORE_BUILD=no "${COMP_WORDS[0]}" bookmarks 2>/dev/null | cut -f 1
        ;;
    verify.2) echo --jobs ;;
    branches.2) echo --steps ;;
    cat.3) HG_STORE_BUILD=no "${COMP_WORDS[0]}" files "${COMP_WORDS[2]}" 2>/dev/null | cut -d ' ' -f 3- ;;
    esac
}

_hg_store() {
    local word current=${COMP_WORDS[COMP_CWORD]}
    COMPREPLY=()
    while IFS= read -r word; do
        [[ $word = "$current"* ]] && COMPREPLY+=("$(printf '%q' "$word")")
    done < <(_hg_store_words)
}
complete -F _hg_store hg_store

# Completion of hg_store for fish: commands, bookmarks as names of revisions, and the paths of a changeset.

function __hg_store_bookmarks
    HG_STORE_BUILD=no $argv[1] bookmarks 2>/dev/null | cut -f 1
end

# The words that can stand at the cursor, one a line. An option stands before the names.
function __hg_store_words
    set -l words (commandline -opc)
    set -l command $words[2]
    set -l place (count $words)
    set -l shown $place
    if test $place = 1
        printf '%s\n' log heads files cat bookmarks parents phase revset branches init commit import bookmark verify gen recover play session --help --version
        return
    end
    if test "$command $words[3]" = 'phase --force'
        set place (math $place - 1)
    else if test "$command $words[3]" = 'bookmark --delete'
        set command delete
        set place (math $place - 1)
    end
    switch $command.$place
        case files.2 cat.2 phase.2 revset.2 bookmark.3
            printf '%s\n' tip .
            test $command.$shown = phase.2; and echo -- --force
            __hg_store_bookmarks $words[1]
        case phase.3
            printf '%s\n' public draft secret
        case bookmark.2 delete.2
            test $shown = 2; and echo -- --delete
            __hg_store_bookmarks $words[1]
        case verify.2
            echo -- --jobs
        case branches.2
            echo -- --steps
        case cat.3
            HG_STORE_BUILD=no $words[1] files $words[3] 2>/dev/null | cut -d ' ' -f 3-
    end
end

complete -c hg_store -f -a '(__hg_store_words)'

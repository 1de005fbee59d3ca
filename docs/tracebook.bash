# Completes the command line of tracebook in bash: its options, the words that follow them, and files.

_tracebook_options="--large --limit --nanoseconds --seal --strict --top --by --numbers --of --group-by --where --merge-templates --only --skip --json --apart --repeats --jobs --add --files-from --refused --folded --page --base --help --version"

_tracebook() {
    local word=${COMP_WORDS[COMP_CWORD]} before=${COMP_WORDS[COMP_CWORD-1]} earlier of=spans numbers names listed
    COMPREPLY=()
    # An equals sign is a word of its own.
    if [[ $word == "=" ]]; then
        word=
    elif [[ $before == "=" ]]; then
        before=${COMP_WORDS[COMP_CWORD-2]}
    fi
    # Behind -- every word is a file, which bash completes itself where there is no reply.
    for earlier in "${COMP_WORDS[@]:1:COMP_CWORD-1}"; do
        [[ $earlier == "--" ]] && return
        [[ $earlier == "async" || $earlier == "--add" ]] && of=$earlier
    done
    case $of in
        spans) numbers="self total count longest outer" names="pid tid process thread name file args. parent.name parent.args." ;;
        async) numbers="total closed open points longest" names="cat scope id name file" ;;
        # Tables that are added say themselves what they sum.
        --add) numbers="self total count longest outer closed open points" names="pid tid process thread name file cat scope id args. parent.name parent.args." ;;
    esac
    case $before in
        --of) mapfile -t COMPREPLY < <(compgen -W "spans async" -- "$word") ;;
        --by) mapfile -t COMPREPLY < <(compgen -W "$numbers" -- "$word") ;;
        --group-by | --numbers)
            [[ $before == "--numbers" ]] && names=$numbers
            # What is listed before the last comma stays.
            listed=${word%"${word##*,}"}
            compopt -o nospace 2>/dev/null
            mapfile -t COMPREPLY < <(compgen -P "$listed" -W "$names" -- "${word##*,}")
            ;;
        --where)
            compopt -o nospace 2>/dev/null
            mapfile -t COMPREPLY < <(compgen -W "$names" -- "$word")
            ;;
        --limit | --top | --jobs | --only | --skip) compopt +o default 2>/dev/null ;;
        --base | --files-from) ;;
        *) [[ $word == -* ]] && mapfile -t COMPREPLY < <(compgen -W "$_tracebook_options" -- "$word") ;;
    esac
    return 0
}

complete -o default -F _tracebook tracebook

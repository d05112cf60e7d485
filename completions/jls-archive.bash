# Completion of jls-archive for bash.
_jls_archive() {
    local word=${COMP_WORDS[COMP_CWORD]} before=${COMP_WORDS[COMP_CWORD - 1]}
    COMPREPLY=()
    case "$before" in
        --jobs | --tries | --seconds | --part) return ;;
        --ssh) mapfile -t COMPREPLY < <(compgen -A hostname -- "$word"); return ;;
        --bad)
            mapfile -t COMPREPLY < <(compgen -P "${word%%:*}:" -f -- "${word#*:}")
            compopt -o filenames 2> /dev/null
            return
            ;;
    esac
    if [[ $word == -* && $before != --sums ]]; then
        mapfile -t COMPREPLY < <(compgen -W '--folders --sums --bad --jobs --tries --seconds --part --ssh --report --no-names --quiet --help --version' -- "$word")
    elif [ "$before" = --sums ]; then
        mapfile -t COMPREPLY < <(compgen -f -- "$word")
        compopt -o filenames 2> /dev/null
    else
        mapfile -t COMPREPLY < <(compgen -d -- "$word")
        compopt -o filenames 2> /dev/null
    fi
}
complete -F _jls_archive jls-archive

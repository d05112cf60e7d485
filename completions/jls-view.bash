# Completion of jls-view for bash.
_jls_view() {
    local word=${COMP_WORDS[COMP_CWORD]} before=${COMP_WORDS[COMP_CWORD - 1]}
    COMPREPLY=()
    case "$before" in
        --window | --frame | --scale) return ;;
    esac
    [ "$COMP_CWORD" -lt 3 ] || [ "${COMP_WORDS[COMP_CWORD - 2]}" != --window ] || return
    if [[ $word == -* && $before != --mask ]]; then
        mapfile -t COMPREPLY < <(compgen -W '--window --signed --frame --scale --mask --map --help --version' -- "$word")
    else
        mapfile -t COMPREPLY < <(compgen -f -- "$word")
        compopt -o filenames 2> /dev/null
    fi
}
complete -F _jls_view jls-view

# Completion of jls-salvage for bash.
_jls_salvage() {
    local word=${COMP_WORDS[COMP_CWORD]} before=${COMP_WORDS[COMP_CWORD - 1]} command=${COMP_WORDS[1]:-}
    COMPREPLY=()
    if [ "$COMP_CWORD" -eq 1 ]; then
        mapfile -t COMPREPLY < <(compgen -W 'check show join write help --help --version' -- "$word")
        return
    fi
    case "$before" in
        --as) mapfile -t COMPREPLY < <(compgen -W 'jls pnm' -- "$word"); return ;;
        --ilv) mapfile -t COMPREPLY < <(compgen -W 'none line' -- "$word"); return ;;
        --ri | --source) return ;;
    esac
    if [[ $word == -* ]]; then
        local options=--help
        case "$command" in
            join) options='--source --help' ;;
            write) options='--as --ilv --ri --help' ;;
        esac
        mapfile -t COMPREPLY < <(compgen -W "$options" -- "$word")
    else
        mapfile -t COMPREPLY < <(compgen -f -- "$word")
        compopt -o filenames 2> /dev/null
    fi
}
complete -F _jls_salvage jls-salvage

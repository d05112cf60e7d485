# Completion of jls-splice for bash.
_jls_splice() {
    local word=${COMP_WORDS[COMP_CWORD]} before=${COMP_WORDS[COMP_CWORD - 1]}
    COMPREPLY=()
    case "$before" in
        --source | --tries | --max) return ;;
        --bad)
            mapfile -t COMPREPLY < <(compgen -P "${word%%:*}:" -f -- "${word#*:}")
            compopt -o filenames 2> /dev/null
            return
            ;;
    esac
    if [[ $word == -* && $before != --file && $before != --files && $before != --witness ]]; then
        mapfile -t COMPREPLY < <(compgen -W '--source --tries --max --progress --file --files --bad --witness --help --version' -- "$word")
    else
        mapfile -t COMPREPLY < <(compgen -f -- "$word")
        compopt -o filenames 2> /dev/null
    fi
}
complete -F _jls_splice jls-splice

# Completion of jls-dicom for bash.
_jls_dicom() {
    local word=${COMP_WORDS[COMP_CWORD]} before=${COMP_WORDS[COMP_CWORD - 1]} command=${COMP_WORDS[1]:-}
    COMPREPLY=()
    if [ "$COMP_CWORD" -eq 1 ]; then
        mapfile -t COMPREPLY < <(compgen -W 'mend frames info --help --version' -- "$word")
        return
    fi
    case "$before" in
        --max | --tries | --bad | --sha256 | --with-gaps) return ;;
    esac
    if [[ $word == -* && $before != --header ]]; then
        local options='--quiet --help'
        [ "$command" != mend ] || options="--max --tries --header --same --bad --sha256 --with-gaps --no-names $options"
        mapfile -t COMPREPLY < <(compgen -W "$options" -- "$word")
    else
        mapfile -t COMPREPLY < <(compgen -f -- "$word")
        compopt -o filenames 2> /dev/null
    fi
}
complete -F _jls_dicom jls-dicom

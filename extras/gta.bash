# Completion of gta for bash.
_gta() {
    local word=${COMP_WORDS[COMP_CWORD]} before=${COMP_WORDS[COMP_CWORD - 1]} words=
    if [ "$COMP_CWORD" -eq 1 ]; then
        words="run show list drill"
    elif [ "$before" != --workers ] && [ "$before" != --leaf ]; then
        case ${COMP_WORDS[1]} in
            run | drill) words="--workers --leaf" ;;
        esac
    fi
    COMPREPLY=($(compgen -W "$words" -- "$word"))
}
complete -F _gta gta

# Completion of abcps, abcpdf, abchints and abcbatch for bash: commands, options and their values.

_abcps() {
    local word=${COMP_WORDS[COMP_CWORD]} before=${COMP_WORDS[COMP_CWORD - 1]} words=
    COMPREPLY=()
    case $before in
    --jobs | --processes) words='1 2 4 8 16 32 64' ;;
    --transpose) words='-12 -7 -5 -2 -1 1 2 5 7 12' ;;
    --sshlogin | -o) COMPREPLY=() && return ;;
    hear) words='not octave pitch' ;;
    help) words='set systems inspect check make trial paint hear' ;;
    *)
        case ${COMP_WORDS[0]##*/}/${COMP_WORDS[1]-} in
        abcpdf/*) words='-o --watch --flow --jobs --transpose --even --help' ;;
        abchints/*) words='--flow --jobs --transpose --even --help' ;;
        abcbatch/*) words='--processes --sshlogin --flow --jobs --transpose --even --help' ;;
        */set) words='--flow --jobs --transpose --even' ;;
        */systems) words='--flow --table --transpose' ;;
        */trial) words='--flow --jobs --even' ;;
        esac
        [ "$COMP_CWORD" != 1 ] || [ "${COMP_WORDS[0]##*/}" != abcps ] ||
            words='set systems inspect check make trial paint hear help --help --version'
        ;;
    esac
    while IFS= read -r found; do COMPREPLY+=("$found"); done < <(compgen -W "$words" -- "$word")
}

complete -F _abcps abcps
complete -o default -F _abcps abcpdf abchints
complete -o default -o dirnames -F _abcps abcbatch

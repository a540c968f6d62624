# The options of bohm and of its companion programs, as their --help lists them.
_bohm() {
    local word=${COMP_WORDS[COMP_CWORD]}
    case $word in
    -*) mapfile -t COMPREPLY < <(compgen -W "$("$1" --help 2>/dev/null </dev/null | grep -oE -- '--[a-z][a-z-]*' | sort -u)" -- "$word") ;;
    *) COMPREPLY=() ;;
    esac
}
complete -o default -F _bohm "${BASH_SOURCE[0]##*/}"

# Completes the words of dynamo in bash: `source tools/completion.bash`.
_dynamo() {
    local word=${COMP_WORDS[COMP_CWORD]}
    COMPREPLY=()
    local jobs='run serve ring storm'
    if [ "$COMP_CWORD" = 1 ]; then
        mapfile -t COMPREPLY < <(compgen -W "$jobs build help --help --version" -- "$word")
        return
    fi
    case ${COMP_WORDS[1]} in
    run | serve | ring)
        local flags=
        [ "${COMP_WORDS[1]}" = ring ] || flags=--steps
        compopt -o filenames 2>/dev/null
        mapfile -t COMPREPLY < <(compgen -W "$flags" -- "$word")
        mapfile -t -O ${#COMPREPLY[@]} COMPREPLY < <(
            compgen -f -X '!*.json' -- "$word"; compgen -d -- "$word")
        ;;
    storm)
        [ "$COMP_CWORD" -lt 5 ] || mapfile -t COMPREPLY < <(compgen -W '--faults --steps' -- "$word")
        ;;
    help) mapfile -t COMPREPLY < <(compgen -W "$jobs" -- "$word") ;;
    esac
}
complete -F _dynamo dynamo ./dynamo

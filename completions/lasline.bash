# Completion of the words of lasline for bash.

_lasline() {
    local word=${COMP_WORDS[COMP_CWORD]} before=${COMP_WORDS[COMP_CWORD - 1]} option options=()
    COMPREPLY=()
    if [ "$COMP_CWORD" -eq 1 ]; then
        mapfile -t COMPREPLY < <(compgen -W "run plan gen trial --help --version" -- "$word")
        return
    fi
    case ${COMP_WORDS[1]} in
        run | plan)
            if [ "$COMP_CWORD" -eq 2 ]; then
                # Pipelines by their usual ending, and folders; any file where there is none of them.
                compopt -o filenames 2> /dev/null
                mapfile -t COMPREPLY < <(compgen -f -X '!*.json' -- "$word"; compgen -d -- "$word")
                [ ${#COMPREPLY[@]} -gt 0 ] || mapfile -t COMPREPLY < <(compgen -f -- "$word")
                return
            fi
            ;;
        gen)
            if [ "$COMP_CWORD" -eq 3 ]; then
                compopt -o filenames 2> /dev/null
                mapfile -t COMPREPLY < <(compgen -f -- "$word")
            fi
            ;;
        trial) [ "$COMP_CWORD" -gt 2 ] || return ;;
    esac
    # The other commands have no options.
    [[ ${COMP_WORDS[1]} == @(run|trial) ]] || return
    case $before in
        --workers) mapfile -t COMPREPLY < <(compgen -W "1 2 4 8 16 32" -- "$word") ;;
        --patience) mapfile -t COMPREPLY < <(compgen -W "0 1000 1000000" -- "$word") ;;
        --stop) mapfile -t COMPREPLY < <(compgen -W "first" -- "$word") ;;
        --chunk | --queue) mapfile -t COMPREPLY < <(compgen -W "1 2 4 8 16 32 64" -- "$word") ;;
        *)
            # Each option at most once.
            for option in --chunk --queue --workers --patience --whole --stop; do
                [[ " ${COMP_WORDS[*]:3:COMP_CWORD-3} " == *" $option "* ]] || options+=("$option")
            done
            mapfile -t COMPREPLY < <(compgen -W "${options[*]}" -- "$word")
            ;;
    esac
}

complete -F _lasline lasline

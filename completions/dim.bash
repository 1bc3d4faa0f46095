# Completion of the words of dim and dim-picture for bash: commands, options, the states of a switch, and names of files.
# To use it: . completions/dim.bash

_dim() {
    local word=${COMP_WORDS[COMP_CWORD]} before=${COMP_WORDS[COMP_CWORD - 1]} command=${COMP_WORDS[1]}
    local commands='run live immunize check why predict depths show switch generate'
    local options=
    COMPREPLY=()
    if [ "$COMP_CWORD" -eq 1 ]; then
        mapfile -t COMPREPLY < <(compgen -W "$commands" -- "$word")
        return
    fi
    case $command in
        run) options='--fuel --quantum --depth --seed' ;;
        live) options='--fuel --quantum --depth --workers' ;;
        immunize) options='--fuel --quantum --depth --seed --attempts' ;;
        predict) options='--depth' ;;
    esac
    case $before in
        # what follows is a number
        --fuel | --quantum | --depth | --seed | --workers | --attempts) return ;;
    esac
    case $command,$COMP_CWORD,$word in
        *,*,-?*) mapfile -t COMPREPLY < <(compgen -W "$options" -- "$word") ;;
        switch,3,* | generate,2,*) ;;
        switch,4,*) mapfile -t COMPREPLY < <(compgen -W 'on off' -- "$word") ;;
        *) mapfile -t COMPREPLY < <(compgen -f -- "$word") ;;
    esac
}

_dim_picture() {
    local word=${COMP_WORDS[COMP_CWORD]} before=${COMP_WORDS[COMP_CWORD - 1]}
    COMPREPLY=()
    case $before,$word in
        --from,* | --to,*) ;;
        *,-?*) mapfile -t COMPREPLY < <(compgen -W '--from --to' -- "$word") ;;
        *) mapfile -t COMPREPLY < <(compgen -f -- "$word") ;;
    esac
}

complete -o filenames -F _dim dim ./dim
complete -o filenames -F _dim_picture dim-picture ./dim-picture

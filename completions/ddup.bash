# bash completion of ddup: its commands, and the one option of each. Source this file, or put it into
# ~/.local/share/bash-completion/completions under the name ddup.

_ddup() {
    local -A options=([replay]= [record]=--client [view]=--frame [gen]=--seed [sum]=--seed)
    local words=
    case $COMP_CWORD in
        1) words=${!options[*]} ;;
        2) words=${options[${COMP_WORDS[1]}]-} ;;
    esac
    COMPREPLY=($(compgen -W "$words" -- "${COMP_WORDS[COMP_CWORD]}"))
}

complete -F _ddup ddup

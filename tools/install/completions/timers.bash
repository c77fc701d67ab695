# Completes the arguments of timers(1) in bash: the words come from its help.
_timers() {
    local help words option='s/^ +(-., )?(--[a-z-]+).*/\2/p'
    if [ "$COMP_CWORD" -gt 1 ] && [ "${COMP_WORDS[1]}" != help ]; then
        help=$("$1" "${COMP_WORDS[1]}" -h 2> /dev/null)
        words=$(sed -nE "$option" <<< "$help")
        if grep -qE -e "^ +$3 <" <<< "$help"; then
            words=$(sed -nE "s/^ +$3 <.*\[possible values: (.*)\]\$/\1/p" <<< "$help" | tr -d ,)
        fi
    else
        [ "$COMP_CWORD" -eq 1 ] || option=   # help takes no option
        words=$("$1" -h 2> /dev/null | sed -nE "/^Commands:/,/^\$/s/^  ([a-z]+) .*/\1/p; $option")
    fi
    mapfile -t COMPREPLY < <(compgen -W "$words" -- "$2")
}
complete -o default -F _timers timers

# The words of `otn_network` in bash. Try it by `. completion/otn_network.bash`; a copy named `otn_network` in
# bash-completion/completions below ~/.local/share is found by itself.
_otn_network() {
    local word=${COMP_WORDS[COMP_CWORD]} before=${COMP_WORDS[COMP_CWORD - 1]}
    if [ "$COMP_CWORD" = 1 ]; then
        mapfile -t COMPREPLY < <(compgen -f -W "--help --json run" -- "$word")
    elif [ "${COMP_WORDS[1]}" = --json ]; then
        [ "$COMP_CWORD" = 2 ] && mapfile -t COMPREPLY < <(compgen -f -- "$word")
    elif [ "${COMP_WORDS[1]}" != run ]; then
        return
    elif [ "$before" = --lines ]; then
        mapfile -t COMPREPLY < <(compgen -W "all" -- "$word")
    elif [ "$COMP_CWORD" = 2 ]; then
        mapfile -t COMPREPLY < <(compgen -f -W "--lines" -- "$word")
    elif [ "$COMP_CWORD" = 3 ] && [ "$before" != --lines ]; then
        mapfile -t COMPREPLY < <(compgen -W "--lines" -- "$word")
    fi
}
complete -F _otn_network otn_network

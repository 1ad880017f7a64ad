# The words of `otn` in bash. Try it by `. completion/otn.bash`; a copy named `otn` in bash-completion/completions
# below ~/.local/share is found by itself.
_otn() {
    local word=${COMP_WORDS[COMP_CWORD]} words= behind=0
    if [ "$COMP_CWORD" -gt 1 ] && [ "${COMP_WORDS[1]}" = --explain ]; then behind=1; fi
    case $((COMP_CWORD - behind)),${COMP_WORDS[1 + behind]} in
        # a command stands in this list, and with the words after it below
        1,*) words="check run slot pull protect bundle unbundle trial --explain --rules --help --version" ;;
        2,run) words="--order --pcap" ;;
        2,slot | 2,pull | 3,pull | 2,protect | 3,protect) words="1 2 3 4 5 6 7 8" ;;
    esac
    mapfile -t COMPREPLY < <(compgen -W "$words" -- "$word")
}
complete -F _otn otn

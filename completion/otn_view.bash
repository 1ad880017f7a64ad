# The words of `otn_view` in bash. Try it by `. completion/otn_view.bash`; a copy named `otn_view` in
# bash-completion/completions below ~/.local/share is found by itself.
_otn_view() {
    local word=${COMP_WORDS[COMP_CWORD]} words=
    case $COMP_CWORD,${COMP_WORDS[2]} in
        1,*) mapfile -t COMPREPLY < <(compgen -f -W "--help" -- "$word"); return ;;
        2,*) words="in out otu3 scrambled events" ;;
        3,in | 3,out) words="0 1 2 3" ;;
        3,otu3) words="scrambled events" ;;
        *) words="events" ;;
    esac
    mapfile -t COMPREPLY < <(compgen -W "$words" -- "$word")
}
complete -F _otn_view otn_view

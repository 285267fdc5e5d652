# Made by scripts/made_pages.py of what `giop help` prints. In a shell: . docs/giop.bash
_giop() {
    local word=${COMP_WORDS[COMP_CWORD]} words files=
    case $COMP_CWORD:${COMP_WORDS[1]} in
    1:*) words='play show check trace ior serve help --help --version' ;;
    2:help) words='play show check trace ior serve' ;;
    *) case ${COMP_WORDS[1]} in
    play) words='--capacity --share --start --limit --partials --engine --parked --joined --asks --help' ;;
    show) words='--raw --help' files=1 ;;
    check) words='--raw --help' files=1 ;;
    trace) words='--raw --resume --cuts --json --bodies --clock --color --keys --types --operation --object --client --call --slower --unanswered --faults --summary --help' files=1 ;;
    ior) words='--names --help' ;;
    serve) words='--port --connections --capacity --share --start --limit --partials --timeout --log --help' ;;
    esac ;;
    esac
    COMPREPLY=($(compgen -W "$words" -- "$word") ${files:+$(compgen -f -- "$word")})
}
complete -F _giop giop
complete -F _giop ./giop

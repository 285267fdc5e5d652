# Completions by what the program's help prints. In a shell: . docs/lemonrudder.bash
_lemonrudder() {
    local word=${COMP_WORDS[COMP_CWORD]} words='guard retry ior check store help --help --version' files=
    if [ "$COMP_CWORD" -gt 1 ]; then
        words=$("${COMP_WORDS[0]}" "${COMP_WORDS[1]}" --help 2>/dev/null | grep -o -e '--[a-z][a-z-]*' | sort -u) files=1
    fi
    COMPREPLY=($(compgen -W "$words" -- "$word") ${files:+$(compgen -f -- "$word")})
}
complete -F _lemonrudder lemonrudder

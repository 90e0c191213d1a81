# Completion of the installed command for bash: its commands, files, and the numbers of points that `steps` has lists of.
_hoengtila_blocks() {
    local word=${COMP_WORDS[COMP_CWORD]} command=${COMP_WORDS[1]} words=
    if [ "$COMP_CWORD" = 1 ]; then
        words=$("$1" help 2>/dev/null | sed -n 's/^  \([a-z-]*\) .*/\1/p')
    elif [ "$command" = steps ]; then
        words="4 16 32"
    fi
    mapfile -t COMPREPLY < <(compgen -W "$words" -- "$word"; [ "$command" = steps ] || compgen -f -- "$word")
}
complete -o filenames -F _hoengtila_blocks hoengtila-blocks

# Completion of liftd's words for bash: what `liftd --help` lists.
_liftd() {
    local word=${COMP_WORDS[COMP_CWORD]} before=${COMP_WORDS[COMP_CWORD - 1]} command=${COMP_WORDS[1]} help lines words=
    help=$("$1" --help 2>/dev/null)
    lines=$(awk -v command="$command" '/^  liftd/ { inside = index($2, command) } /^$/ { inside = 0 } inside' <<<"$help")
    if [ "$COMP_CWORD" -eq 1 ]; then
        words="$(sed -n 's/^  liftd \[*\([a-z]*\).*/\1/p' <<<"$help") --help"
    elif [[ $before == --* && $lines == *"$before "* ]]; then
        words=$(sed -n "s/.*$before \([a-z|]*\)\].*/\1/p" <<<"$lines" | tr '|' ' ')
    elif [[ $word == -* ]]; then
        words=$(grep -o -- '--[a-z-]*' <<<"$lines")
    elif [ "$command" != replay ]; then
        compopt -o filenames
        mapfile -t COMPREPLY < <(compgen -f -- "$word")
        return
    fi
    mapfile -t COMPREPLY < <(compgen -W "$words" -- "$word")
}
complete -F _liftd liftd

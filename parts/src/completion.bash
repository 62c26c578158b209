# Completes the commands and options of parts in bash, which completes files itself.
_parts() {
    local word=${COMP_WORDS[COMP_CWORD]} last=${COMP_WORDS[COMP_CWORD - 1]}
    local typed="${COMP_WORDS[*]:1:COMP_CWORD - 1} " words= is_option=
    case $typed in
CASES
    esac
    if [[ $last == --side ]]; then
        words='top bottom both'
    elif [[ $last == --format ]]; then
        words='text csv json'
    elif [[ $last == --plan || ($last == --tips && $typed == 'order '*) ]]; then
        words='quick best exact'
    elif [[ $is_option && $word != -* ]]; then
        words=
    fi
    # No word of a command has a space in it.
    COMPREPLY=($(compgen -W "$words" -- "$word" || true))
}
complete -o default -F _parts parts

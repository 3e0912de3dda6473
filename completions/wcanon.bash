# Completion of wcanon for bash.
_wcanon() {
    local word=${COMP_WORDS[COMP_CWORD]} last=${COMP_WORDS[COMP_CWORD-1]}
    COMPREPLY=()
    if ((COMP_CWORD == 1)); then
        mapfile -t COMPREPLY < <(compgen -W "binary text check compare hash canonical help -h --help -V --version" -- "$word")
        return
    fi
    if [[ $word == -* && $last != -o && $last != --output ]]; then
        local options="-h --help"
        [[ ${COMP_WORDS[1]} == @(binary|text) ]] && options="-o --output $options"
        mapfile -t COMPREPLY < <(compgen -W "$options" -- "$word")
        return
    fi
    mapfile -t COMPREPLY < <(compgen -f -- "$word")
}
complete -o filenames -F _wcanon wcanon

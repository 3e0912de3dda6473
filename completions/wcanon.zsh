#compdef wcanon
# Completion of wcanon for zsh.
_wcanon() {
    local -a subcommands
    subcommands=(
        'binary:Write the canonical bytes of a module'
        'text:Write the text of a module'
        'check:Tell whether modules are accepted, or the first fault of each'
        'compare:Tell whether two files denote the same module'
        'hash:Tell the SHA-256 of the canonical bytes of modules'
        'canonical:Tell whether modules are their own canonical bytes'
    )
    _arguments -C \
        '(- *)'{-h,--help}'[Print help]' \
        '(- *)'{-V,--version}'[Print the version]' \
        '1:subcommand:->subcommand' \
        '*::argument:->argument'
    case $state in
        subcommand) _describe subcommand subcommands ;;
        argument)
            case $words[1] in
                binary | text) _arguments '(-o --output)'{-o,--output}'[The file to write]:file:_files' '(- *)'{-h,--help}'[Print help]' '1:module:_files' ;;
                compare) _arguments '(- *)'{-h,--help}'[Print help]' '1:one module:_files' '2:the other module:_files' ;;
                check | hash | canonical) _arguments '(- *)'{-h,--help}'[Print help]' '*:module:_files' ;;
            esac
            ;;
    esac
}
_wcanon "$@"

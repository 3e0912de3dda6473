# Completion of wcanon for fish.
complete -c wcanon -n __fish_use_subcommand -f
complete -c wcanon -n __fish_use_subcommand -s h -l help -d 'Print help'
complete -c wcanon -n __fish_use_subcommand -s V -l version -d 'Print the version'
complete -c wcanon -n __fish_use_subcommand -a binary -d 'Write the canonical bytes of a module'
complete -c wcanon -n __fish_use_subcommand -a text -d 'Write the text of a module'
complete -c wcanon -n __fish_use_subcommand -a check -d 'Tell whether modules are accepted, or the first fault of each'
complete -c wcanon -n __fish_use_subcommand -a compare -d 'Tell whether two files denote the same module'
complete -c wcanon -n __fish_use_subcommand -a hash -d 'Tell the SHA-256 of the canonical bytes of modules'
complete -c wcanon -n __fish_use_subcommand -a canonical -d 'Tell whether modules are their own canonical bytes'
complete -c wcanon -n '__fish_seen_subcommand_from binary text check compare hash canonical' -s h -l help -d 'Print help'
complete -c wcanon -n '__fish_seen_subcommand_from binary text' -s o -l output -r -d 'The file to write'

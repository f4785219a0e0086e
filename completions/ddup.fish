# fish completion of ddup: its commands, and the one option of each. Put this file into
# ~/.config/fish/completions.

complete -c ddup -f
complete -c ddup -n __fish_use_subcommand -a replay -d 'write the answers of a script'
complete -c ddup -n __fish_use_subcommand -a record -d 'write what a client saw as a record'
complete -c ddup -n __fish_use_subcommand -a view -d 'write a picture of a record'
complete -c ddup -n __fish_use_subcommand -a gen -d 'make a script from a number'
complete -c ddup -n __fish_use_subcommand -a sum -d 'count the answers of a made script'
complete -c ddup -n '__fish_seen_subcommand_from record' -x -l client -d 'a client, 1 to 16'
complete -c ddup -n '__fish_seen_subcommand_from view' -x -l frame -d 'a frame, 1 to 1048576'
complete -c ddup -n '__fish_seen_subcommand_from gen' -x -l seed -d 'a number, 0 to 4294967295'
complete -c ddup -n '__fish_seen_subcommand_from sum' -x -l seed -d 'a number, 0 to 4294967295'

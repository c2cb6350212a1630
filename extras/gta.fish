# Completion of gta for fish.
complete -c gta -f
complete -c gta -n __fish_use_subcommand -a run -d 'answer the job on standard input'
complete -c gta -n __fish_use_subcommand -a show -d 'print the job in one spelling'
complete -c gta -n __fish_use_subcommand -a list -d 'print the choices that are allowed'
complete -c gta -n __fish_use_subcommand -a drill -d 'answer three jobs over rows that a seed makes'
complete -c gta -n '__fish_seen_subcommand_from run drill' -l workers -x -d 'how many workers compute, 1 to 64'
complete -c gta -n '__fish_seen_subcommand_from run drill' -l leaf -x -d 'how many rows a leaf has, 1 to 65536'

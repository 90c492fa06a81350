# Completion of osm-hist-mirror's words in fish. tools/words compares it with the script's help.
set -l commands init update status help
set -l none "not __fish_seen_subcommand_from $commands"

complete -c osm-hist-mirror -f
complete -c osm-hist-mirror -n $none -a init -d 'Make a mirror from an extract'
complete -c osm-hist-mirror -n $none -a update -d 'Fetch and apply changes, and make the map'
complete -c osm-hist-mirror -n $none -a status -d 'Print what a mirror has, and how its last update ended'
complete -c osm-hist-mirror -n $none -a help -d 'Print help, of a command or of the program'
complete -c osm-hist-mirror -n "__fish_seen_subcommand_from help" -a 'init update status help'
complete -c osm-hist-mirror -n "__fish_seen_subcommand_from init" -F
complete -c osm-hist-mirror -n "__fish_seen_subcommand_from update status" -a '(__fish_complete_directories)'

complete -c osm-hist-mirror -n "not __fish_seen_subcommand_from help" -s h -l help -d 'Print help'
complete -c osm-hist-mirror -n $none -s V -l version -d 'Print the version'
complete -c osm-hist-mirror -n "__fish_seen_subcommand_from init" -l from -x -d 'The source of change files'
complete -c osm-hist-mirror -n "__fish_seen_subcommand_from init" -l region -r -F -d 'Cut the map to a box or a polygon'
complete -c osm-hist-mirror -n "__fish_seen_subcommand_from init" -l map -r -F -d 'The map, in the format of its name'
complete -c osm-hist-mirror -n "__fish_seen_subcommand_from init" -l changes -x -a 'history extracts' -d 'What the change files come from'
complete -c osm-hist-mirror -n "__fish_seen_subcommand_from init update" -l quiet -d 'Print only failures'
complete -c osm-hist-mirror -n "__fish_seen_subcommand_from status" -l json -d 'Print an object of JSON'

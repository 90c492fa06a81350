# Completion of osm_hist's words in fish. tools/words compares it with the program's help.
set -l commands merge apply time-filter sort check plan help
set -l writing merge apply time-filter sort
set -l none "not __fish_seen_subcommand_from $commands"

complete -c osm_hist -f
complete -c osm_hist -n $none -a merge -d 'Merge sorted files into one'
complete -c osm_hist -n $none -a apply -d 'Write the newest version of each object after all changes'
complete -c osm_hist -n $none -a time-filter -d 'Write the map at a moment, or the history of a period'
complete -c osm_hist -n $none -a sort -d 'Sort files in any order into one'
complete -c osm_hist -n $none -a check -d 'Print what a file holds, and whether it is sorted'
complete -c osm_hist -n $none -a plan -d 'Run mirrors that pass on what they take'
complete -c osm_hist -n $none -a help -d 'Print help, of a command or of the program'
complete -c osm_hist -n "__fish_seen_subcommand_from help" -a 'merge apply time-filter sort check plan help'
complete -c osm_hist -n "__fish_seen_subcommand_from $writing check plan" -F

complete -c osm_hist -n "not __fish_seen_subcommand_from help" -s h -l help -d 'Print help'
complete -c osm_hist -n $none -s V -l version -d 'Print the version'
complete -c osm_hist -n $none -l explain -x -a 'Unsorted BadHeader NoEnd Truncated AfterEnd TooLong UnknownKind UnknownField RepeatedField BadNumber BadText BadTime BadCoordinate BadList OutOfRange NoVersion NoTime NoLocation NotUtf8 BadReference BadSection BadMemberType MixedSegment ReadFault WriteFault BadWord BadOrder NoMirror' -d 'Explain a reason, or list them'
complete -c osm_hist -n "__fish_seen_subcommand_from $writing" -s o -l output -r -F -d 'The file to be written'
complete -c osm_hist -n "__fish_seen_subcommand_from $writing" -s f -l format -x -a 'opl o5m o5c' -d 'Its format'
complete -c osm_hist -n "__fish_seen_subcommand_from $writing" -l shard -x -d 'Write part K of N'
complete -c osm_hist -n "__fish_seen_subcommand_from $writing" -l fsync -d 'Have it on the disk before it is renamed'
complete -c osm_hist -n "__fish_seen_subcommand_from $writing" -l progress -d 'Tell while it runs how many megabytes were read'
complete -c osm_hist -n "__fish_seen_subcommand_from apply" -l with-history -d 'Write all versions'
complete -c osm_hist -n "__fish_seen_subcommand_from apply" -l with-deletions -d 'Write the newest version of each object, deletions included'
complete -c osm_hist -n "__fish_seen_subcommand_from apply time-filter sort check" -l sorted -d 'Reject a file that is not sorted'
complete -c osm_hist -n "__fish_seen_subcommand_from $writing check" -l whole -d 'Reject an OPL file whose last line has no line feed'
complete -c osm_hist -n "__fish_seen_subcommand_from $writing check" -l ended -d 'Reject OPL from a pipe that does not end with the line "# end"'
complete -c osm_hist -n "__fish_seen_subcommand_from plan" -l strict -d 'Write nothing if an event fails'
complete -c osm_hist -n "__fish_seen_subcommand_from $writing check" -l files0-from -r -F -d 'Read the names of the files from a list, each ended by NUL'
complete -c osm_hist -n "__fish_seen_subcommand_from $writing" -l summary -d 'Tell after success what was read and written'
complete -c osm_hist -n "__fish_seen_subcommand_from $writing" -l reject-clashes -d 'Fail if a key is visible and deleted'
complete -c osm_hist -n "__fish_seen_subcommand_from $writing check plan" -l hints -d 'Say after a failure what to do'
complete -c osm_hist -n "__fish_seen_subcommand_from check" -l summary -d 'Tell the versions by kind and the times of each file'
complete -c osm_hist -n "__fish_seen_subcommand_from check" -l json -d 'Print an object of JSON for each file'

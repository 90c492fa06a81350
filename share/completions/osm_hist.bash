# Completion of osm_hist's words in bash. tools/words compares it with the program's help.

# The words of a list that begin as the word at hand does.
_osm_hist_offer() {
    mapfile -t COMPREPLY < <(compgen -W "$1" -- "$2")
}

# The files that begin so.
_osm_hist_files() {
    compopt -o filenames
    mapfile -t COMPREPLY < <(compgen -f -- "$1")
}

# The options of a command.
_osm_hist_options() {
    case $1 in
    merge) echo --output -o --format -f --shard --fsync --progress --summary --reject-clashes --whole --ended --files0-from --hints --help -h ;;
    apply) echo --output -o --format -f --shard --fsync --progress --summary --reject-clashes --whole --ended --files0-from --hints --with-history --with-deletions --sorted --help -h ;;
    time-filter | sort) echo --output -o --format -f --shard --fsync --progress --summary --reject-clashes --whole --ended --files0-from --hints --sorted --help -h ;;
    check) echo --sorted --summary --json --whole --ended --files0-from --hints --help -h ;;
    plan) echo --strict --hints --help -h ;;
    '') echo --explain --help -h --version -V ;;
    esac
}

_osm_hist() {
    local word=$2 before=$3 command=
    local commands='merge apply time-filter sort check plan help'
    if [ "$COMP_CWORD" -gt 1 ]; then command=${COMP_WORDS[1]}; fi
    # bash takes an equals sign as a word of its own, as in --format=o5m.
    if [ "$word" = = ]; then word= before=${COMP_WORDS[COMP_CWORD - 1]}; fi
    if [ "$before" = = ]; then before=${COMP_WORDS[COMP_CWORD - 2]}; fi
    case $before in
    --format | -f) _osm_hist_offer 'opl o5m o5c' "$word" && return ;;
    --shard) return ;;
    --explain) _osm_hist_offer 'Unsorted BadHeader NoEnd Truncated AfterEnd TooLong UnknownKind UnknownField RepeatedField BadNumber BadText BadTime BadCoordinate BadList OutOfRange NoVersion NoTime NoLocation NotUtf8 BadReference BadSection BadMemberType MixedSegment ReadFault WriteFault BadWord BadOrder NoMirror' "$word" && return ;;
    --output | -o | --files0-from) _osm_hist_files "$word" && return ;;
    esac
    case $word in
    -*) _osm_hist_offer "$(_osm_hist_options "$command")" "$word" && return ;;
    esac
    case $command in
    '') _osm_hist_offer "$commands" "$word" ;;
    help) if [ "$COMP_CWORD" -eq 2 ]; then _osm_hist_offer "$commands" "$word"; fi ;;
    *) _osm_hist_files "$word" ;;
    esac
}

complete -F _osm_hist osm_hist

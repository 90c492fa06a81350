# Completion of osm-hist-mirror's words in bash. tools/words compares it with the script's help.

# The words of a list that begin as the word at hand does.
_osm_hist_mirror_offer() {
    mapfile -t COMPREPLY < <(compgen -W "$1" -- "$2")
}

# The files or folders that begin so.
_osm_hist_mirror_files() {
    compopt -o filenames
    mapfile -t COMPREPLY < <(compgen "$1" -- "$2")
}

# The options of a command.
_osm_hist_mirror_options() {
    case $1 in
    init) echo --from --region --map --changes --quiet --help -h ;;
    update) echo --quiet --help -h ;;
    status) echo --json --help -h ;;
    '') echo --help -h --version -V ;;
    esac
}

_osm_hist_mirror() {
    local word=$2 before=$3 command=
    local commands='init update status help'
    if [ "$COMP_CWORD" -gt 1 ]; then command=${COMP_WORDS[1]}; fi
    # bash takes an equals sign as a word of its own, as in --changes=extracts.
    if [ "$word" = = ]; then word= before=${COMP_WORDS[COMP_CWORD - 1]}; fi
    if [ "$before" = = ]; then before=${COMP_WORDS[COMP_CWORD - 2]}; fi
    case $before in
    --changes) _osm_hist_mirror_offer 'history extracts' "$word" && return ;;
    --from) return ;;
    --region | --map) _osm_hist_mirror_files -f "$word" && return ;;
    esac
    case $word in
    -*) _osm_hist_mirror_offer "$(_osm_hist_mirror_options "$command")" "$word" && return ;;
    esac
    case $command in
    '') _osm_hist_mirror_offer "$commands" "$word" ;;
    help) if [ "$COMP_CWORD" -eq 2 ]; then _osm_hist_mirror_offer "$commands" "$word"; fi ;;
    init) _osm_hist_mirror_files -f "$word" ;;
    *) _osm_hist_mirror_files -d "$word" ;;
    esac
}

complete -F _osm_hist_mirror osm-hist-mirror

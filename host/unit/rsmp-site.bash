# Completions of rsmp-site, rsmp-replay, rsmp-table, rsmp-week and rsmp-csv for bash. The options are those of a program's own help.

_rsmp_options() {  # PROGRAM
    "$1" --help 2>/dev/null | grep -oE -e '(^|[^[:alnum:]-])--[a-z][a-z-]*' | grep -oE -e '--[a-z-]*' | sort -u
}

_rsmp_words() {  # WORD ..
    COMPREPLY=($(compgen -W "$*" -- "$cur"))
}

_rsmp_files() {
    compopt -o filenames 2>/dev/null
    COMPREPLY=($(compgen -f -- "$cur"))
}

_rsmp_order() {  # the words of the order so far
    local orders="alarm status aggregated counts links records commands show save help quit"
    case ${1-} in
    "") _rsmp_words $orders north south; return ;;
    north | south) shift ;;
    esac
    case ${1-} in
    "") _rsmp_words $orders ;;
    alarm) [ $# = 1 ] || _rsmp_words on off ;;
    show) [ $# != 1 ] || _rsmp_words --json ;;
    esac
}

_rsmp_site() {
    local cur=${COMP_WORDS[COMP_CWORD]} before=${COMP_WORDS[COMP_CWORD - 1]} place
    COMPREPLY=()
    for ((place = 1; place < COMP_CWORD - 1; place++)); do
        if [ "${COMP_WORDS[place]}" = --send ]; then
            _rsmp_order "${COMP_WORDS[@]:place + 2:COMP_CWORD - place - 2}"
            return
        fi
    done
    case $before in
    --table | --state | --control | --record | --log | --metrics | --config | --on-command | --clock | --random | --send) _rsmp_files ;;
    --log-level) _rsmp_words error warning info message debug ;;
    --log-format) _rsmp_words text json ;;
    --primary) _rsmp_words none 0 1 2 3 ;;
    --control-group) COMPREPLY=($(compgen -g -- "$cur")) ;;
    --[a-z]*) case $before in --quiet | --check-config | --beside) _rsmp_words $(_rsmp_options "$1") ;; esac ;;
    *) _rsmp_words $(_rsmp_options "$1") ;;
    esac
}

_rsmp_files_and_options() {
    local cur=${COMP_WORDS[COMP_CWORD]}
    COMPREPLY=()
    case $cur in
    -*) _rsmp_words $(_rsmp_options "$1") ;;
    *) _rsmp_files ;;
    esac
}

_rsmp_table() {
    local cur=${COMP_WORDS[COMP_CWORD]}
    COMPREPLY=()
    if [ "$COMP_CWORD" = 1 ]; then _rsmp_words check pack unpack hex --version --help; else _rsmp_files; fi
}

_rsmp_csv() {
    local cur=${COMP_WORDS[COMP_CWORD]}
    COMPREPLY=()
    case $COMP_CWORD:${COMP_WORDS[1]} in
    1:*) _rsmp_words lines records state --version --help ;;
    2:state) _rsmp_files ;;
    esac
}

complete -F _rsmp_site rsmp-site
complete -F _rsmp_files_and_options rsmp-replay rsmp-week
complete -F _rsmp_table rsmp-table
complete -F _rsmp_csv rsmp-csv

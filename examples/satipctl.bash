# Completion of bash for satipctl and satip; installed below share/bash-completion/completions.

_satipctl() {
    local word=${COMP_WORDS[COMP_CWORD]} command=${COMP_WORDS[1]} options
    local commands="check status metrics page probe wait stop channels new-config journal hold --help"
    COMPREPLY=()
    if [ "$COMP_CWORD" -eq 1 ]; then
        mapfile -t COMPREPLY < <(compgen -W "$commands" -- "$word")
        return
    fi
    case $command in
    check) options="--user --no-ports --wait-for-ports --allow-warnings --quiet" ;;
    status) options="--status-file --no-describe --watch --json" ;;
    metrics) options="--status-file --no-describe --listen --textfile --every" ;;
    page) options="--status-file --no-describe --listen" ;;
    probe) options="--packets --limit --slow" ;;
    wait) options="--limit" ;;
    stop) options="--after --limit --stop-file --status-file --pid" ;;
    channels) options="--table --m3u --vdr" ;;
    new-config) options="--address --to --force" ;;
    journal)
        if [ "$COMP_CWORD" -eq 2 ]; then
            mapfile -t COMPREPLY < <(compgen -W "page print" -- "$word")
            return
        fi
        case ${COMP_WORDS[2]} in
        page) options="--silence --sampled-above --whole" ;;
        print) options="--by-place" ;;
        esac
        ;;
    esac
    case $word in
    -*) mapfile -t COMPREPLY < <(compgen -W "$options --help" -- "$word") ;;
    *) mapfile -t COMPREPLY < <(compgen -f -- "$word") ;;
    esac
}

_satip() {
    local word=${COMP_WORDS[COMP_CWORD]}
    COMPREPLY=()
    if [ "$COMP_CWORD" -eq 1 ]; then
        local commands="serve tunnel journal record audit replay talk stress --help --version"
        mapfile -t COMPREPLY < <(compgen -W "$commands" -- "$word")
        return
    fi
    case ${COMP_WORDS[1]},$COMP_CWORD in
    serve,2 | tunnel,2 | journal,2 | audit,2 | replay,2) mapfile -t COMPREPLY < <(compgen -f -- "$word") ;;
    esac
}

complete -o filenames -F _satipctl satipctl
complete -o filenames -F _satip satip

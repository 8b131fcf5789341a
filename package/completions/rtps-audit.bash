# Completions of rtps-audit for bash.
_rtps_audit() {
    local word=${COMP_WORDS[COMP_CWORD]} command=${COMP_WORDS[1]-}
    COMPREPLY=()
    if [ "$COMP_CWORD" -eq 1 ]; then
        mapfile -t COMPREPLY < <(compgen -W 'check show list audit why page sample help -h --help -V --version' -- "$word")
        return
    fi
    local behind=${COMP_WORDS[COMP_CWORD - 1]}
    if [ "$behind" = = ]; then behind=${COMP_WORDS[COMP_CWORD - 2]}; fi
    case $behind in
    --from | --topic | --node | --expect | --tail | --max-datagrams | --max-octets) return ;;
    esac
    case $command in
    check | show | list | audit | why | page)
        local options='--max-datagrams --max-octets -h --help'
        local report='--from --topic --node --expect --tail --certain --arrived'
        case $command in
        check) options="$report --json $options" ;;
        why | page) options="$report $options" ;;
        audit) options="--from --json --any --fragments $options" ;;
        show | list) options="--any --fragments $options" ;;
        esac
        case $word in
        -*) mapfile -t COMPREPLY < <(compgen -W "$options" -- "$word") ;;
        *)
            mapfile -t COMPREPLY < <(compgen -f -- "$word")
            compopt -o filenames 2>/dev/null
            ;;
        esac
        ;;
    sample) mapfile -t COMPREPLY < <(compgen -W '-h --help' -- "$word") ;;
    help) [ "$COMP_CWORD" -eq 2 ] && mapfile -t COMPREPLY < <(compgen -W 'check show list audit why page sample help' -- "$word") ;;
    esac
}
complete -F _rtps_audit rtps-audit

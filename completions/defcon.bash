# Completes the words of defcon in bash 4 or later: source this file. The first word is a command or
# an option. The others are the names of files, but for labels, places, keys and counts, which are
# left free.

_defcon_forms=(
    'steps SCRIPT'
    'check JOURNAL'
    'purge LABEL JOURNAL'
    'upgrade JOURNAL'
    'why JOURNAL PLACE'
    'auction ORDERS'
    'lint SCRIPT'
    'gen KEY N'
    'floor CONFIG TICKS'
    'floor CONFIG TICKS --workers N'
    'load KEY N'
    '--help'
    '--version'
)

_defcon() {
    local form words kind=none
    COMPREPLY=()
    if [ "$COMP_CWORD" = 1 ]; then
        compopt +o default
        mapfile -t COMPREPLY < <(compgen -W "${_defcon_forms[*]%% *}" -- "${COMP_WORDS[1]}")
        return
    fi
    for form in "${_defcon_forms[@]}"; do
        read -ra words <<<"$form"
        [ "${words[0]}" = "${COMP_WORDS[1]}" ] || continue
        kind="${words[COMP_CWORD - 1]:-$kind}"
    done
    case $kind in
        --*)
            compopt +o default
            mapfile -t COMPREPLY < <(compgen -W "$kind" -- "${COMP_WORDS[COMP_CWORD]}")
            ;;
        LABEL | PLACE | KEY | N | none) compopt +o default ;;
    esac
}

# Where the function gives nothing and leaves the default, bash completes the name of a file.
complete -o default -F _defcon defcon

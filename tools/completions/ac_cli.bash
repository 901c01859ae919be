# What bash completes after `ac_cli`. tools/make-help.py makes this file of the texts in docs/help. Source it in ~/.bashrc, or copy it as `ac_cli` into
# ~/.local/share/bash-completion/completions.

_ac_cli() {
    local word=$2 before=$3 offered=
    COMPREPLY=()
    case $before in
    --tables)
        compopt -o filenames 2>/dev/null
        mapfile -t COMPREPLY < <(compgen -d -- "$word")
        return
        ;;
    --providers | --inventories | --usages | --traits | --aggregates | --change)
        compopt -o filenames 2>/dev/null
        mapfile -t COMPREPLY < <(compgen -f -- "$word")
        return
        ;;
    --microversion)
        mapfile -t COMPREPLY < <(compgen -W '1.36 1.37 1.38 1.39' -- "$word")
        return
        ;;
    -f | --format)
        mapfile -t COMPREPLY < <(compgen -W 'csv table json' -- "$word")
        return
        ;;
    --after)
        return
        ;;
    esac
    if [[ $COMP_CWORD == 1 ]]; then
        offered='check candidates tokens list fill verify explain hosts why capacity compare audit query session help --help --version'
    else
        case ${COMP_WORDS[1]} in
        check) offered='--tables --providers --inventories --usages --traits --aggregates --change --detail --help' ;;
        candidates) offered='--tables --providers --inventories --usages --traits --aggregates --change --detail --microversion --tries --names --after --at --no-traits --help' ;;
        tokens) offered='--tables --providers --inventories --usages --traits --aggregates --change --detail --microversion --tries --names --after --at --help' ;;
        list) offered='--tables --providers --inventories --usages --traits --aggregates --change --detail --microversion --tries --names --after --at --no-traits --format --help' ;;
        fill) offered='--tables --providers --inventories --usages --traits --aggregates --change --detail --microversion --tries --names --sum --help' ;;
        verify) offered='--tables --providers --inventories --usages --traits --aggregates --change --detail --microversion --names --help' ;;
        explain) offered='--tables --providers --inventories --usages --traits --aggregates --change --detail --microversion --tries --names --help' ;;
        hosts) offered='--tables --providers --inventories --usages --traits --aggregates --change --detail --microversion --tries --names --in --fits --sum --format --help' ;;
        why) offered='--tables --providers --inventories --usages --traits --aggregates --change --detail --microversion --tries --names --format --help' ;;
        capacity) offered='--tables --providers --inventories --usages --traits --aggregates --change --detail --microversion --tries --names --prometheus --format --help' ;;
        compare) offered='--tables --providers --inventories --usages --traits --aggregates --change --detail --microversion --tries --names --help' ;;
        audit) offered='--tables --providers --inventories --usages --traits --aggregates --change --detail --zone --format --help' ;;
        query) offered='--detail --microversion --help' ;;
        session) offered='--tables --providers --inventories --usages --traits --aggregates --change --detail --microversion --tries --names --help' ;;
        help) offered='check candidates tokens list fill verify explain hosts why capacity compare audit query session help' ;;
        esac
    fi
    mapfile -t COMPREPLY < <(compgen -W "$offered" -- "$word")
}

complete -F _ac_cli ac_cli

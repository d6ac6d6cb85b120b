# Completion of qs for bash.
_qs() {
    local word="${COMP_WORDS[COMP_CWORD]}" before="${COMP_WORDS[COMP_CWORD - 1]}" settings=""
    if ((COMP_CWORD == 1)); then
        COMPREPLY=($(compgen -W "check graph rules play run syncs outcomes ask fronts estimate help --help --version" -- "$word"))
        return
    fi
    case "${COMP_WORDS[1]} $before" in
        "help help") COMPREPLY=($(compgen -W "language" -- "$word")); return ;;
        "check --format") COMPREPLY=($(compgen -W "text json" -- "$word")); return ;;
        "graph --format") COMPREPLY=($(compgen -W "text json dot" -- "$word")); return ;;
        "rules --format") COMPREPLY=($(compgen -W "text json svg" -- "$word")); return ;;
        "play --format") COMPREPLY=($(compgen -W "text json svg" -- "$word")); return ;;
        "play --mode") COMPREPLY=($(compgen -W "none dynamic static both" -- "$word")); return ;;
        "run --format") COMPREPLY=($(compgen -W "text json svg" -- "$word")); return ;;
        "run --mode") COMPREPLY=($(compgen -W "none dynamic static both" -- "$word")); return ;;
        "syncs --format") COMPREPLY=($(compgen -W "text json" -- "$word")); return ;;
        "outcomes --format") COMPREPLY=($(compgen -W "text json dot" -- "$word")); return ;;
        "ask --format") COMPREPLY=($(compgen -W "text json" -- "$word")); return ;;
        "fronts --format") COMPREPLY=($(compgen -W "text json" -- "$word")); return ;;
        "estimate --format") COMPREPLY=($(compgen -W "text json" -- "$word")); return ;;
    esac
    case "${COMP_WORDS[1]}" in
        check) settings="--verbose --format --warn --help" ;;
        graph) settings="--format --warn --help" ;;
        rules) settings="--format --warn --help --rounds --pick --order --counts --refusals --steps --queues" ;;
        play) settings="--format --warn --help --mode --chunk --rounds --pick --order --counts --refusals --steps --queues" ;;
        run) settings="--times --format --warn --help --mode --chunk --counts --refusals" ;;
        syncs) settings="--format --warn --help --order" ;;
        outcomes) settings="--format --warn --help --limit --threads --after --ends --alike" ;;
        ask) settings="--format --warn --help --always --some --throughout --ever --never --values --limit --threads --after" ;;
        fronts) settings="--format --warn --help --limit --after --leads" ;;
        estimate) settings="--format --warn --help --after" ;;
    esac
    COMPREPLY=($(compgen -W "$settings" -- "$word"))
}
complete -o default -F _qs qs

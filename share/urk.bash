# Completion for urk in bash: commands, their options, table names where a table is asked for, files elsewhere.
_urk() {
    local word=${COMP_WORDS[COMP_CWORD]} before=${COMP_WORDS[COMP_CWORD - 1]} options= at=0 i
    if [ "$COMP_CWORD" = 1 ]; then
        mapfile -t COMPREPLY < <(compgen -W 'check info tables map ledger recover log journal scrub set salvage build lookup rows report record help --help --version' -- "$word")
        return
    fi
    case ${COMP_WORDS[1]} in
    check) options='--alone --recovered --indexes --ordered --json --help' ;;
    info | tables | lookup) options='--alone --json --help' ;;
    log | journal) options='--json --help' ;;
    map) options='--svg --html --alone --json --help' ;;
    ledger) options='--out --check --alone --json --help' ;;
    recover) options='--log --journal --super-journal-present --super-journal-gone --out --json --help' ;;
    scrub) options='--out --alone --json --help' ;;
    set) options='--json --out --alone --help' ;;
    salvage) options='--from --shared --out --alone --json --help' ;;
    build) options='--schema --rows --out --json --help' ;;
    rows) options='--from --unchecked --alone --json --help' ;;
    report) options='--svg --alone --json --help' ;;
    record) options='--hex --alone --json --help' ;;
    esac
    case $word in
    -*)
        mapfile -t COMPREPLY < <(compgen -W "$options" -- "$word")
        return
        ;;
    esac
    for ((i = 2; i < COMP_CWORD; i++)); do
        case ${COMP_WORDS[i]} in --ordered | --from | --svg | --html | --log | --journal | --out | --check | --hex | --schema | --rows) i=$((i + 1)) ;; -?*) ;; *) at=$((at + 1)) ;; esac
    done
    case ${COMP_WORDS[1]}:$at:$before in
    check:*:--ordered)
        for ((i = 2; i < COMP_CWORD - 1; i++)); do case ${COMP_WORDS[i]} in -*) ;; *) break ;; esac; done
        mapfile -t COMPREPLY < <(compgen -W "$(urk tables "${COMP_WORDS[i]}" 2> /dev/null | awk 'NR > 1 && $2 == "index" { print $1 }')" -- "$word")
        ;;
    lookup:1:* | rows:1:* | report:1:* | salvage:1:* | set:1:*)
        mapfile -t COMPREPLY < <(compgen -W "$(urk tables "${COMP_WORDS[2]}" 2> /dev/null | awk 'NR > 1 && $2 == "table" { print $1 }')" -- "$word")
        ;;
    *) mapfile -t COMPREPLY < <(compgen -f -- "$word") ;;
    esac
}
complete -o filenames -F _urk urk

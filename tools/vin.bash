# Completion of vin for bash: commands, the options of each, plans, logs and captures by their names.
# shellcheck shell=bash
_vin_options() { # COMMAND
    case $1 in
    compose) echo "-o --times" ;;
    read) echo "-o --times-out" ;;
    words) echo "-o --text --times-out" ;;
    follow) echo "-o --list --times-out --piece --quiet" ;;
    salvage) echo "-o --times-out --report --json --strict" ;;
    dump) echo "--from --count --group --bus --stored --no-fill --faults -o" ;;
    list) echo "--json --csv --decode -o" ;;
    items | pack | info | pick | join) echo "-o" ;;
    shift) echo "--by -o --times --times-out" ;;
    replay) echo "--capacity --least --events --every --slots --plan -o --strict" ;;
    esac
}

_vin_plans() { # WORD: files that look like a plan, if any does
    mapfile -t COMPREPLY < <(compgen -f -X '!*.plan' -- "$1"; compgen -d -S / -- "$1")
    [ ${#COMPREPLY[@]} -gt 0 ] || mapfile -t COMPREPLY < <(compgen -f -- "$1")
}

_vin() {
    local word=${COMP_WORDS[COMP_CWORD]} before=${COMP_WORDS[COMP_CWORD - 1]} command=${COMP_WORDS[1]} n files=0
    local commands="compose read words items follow salvage check dump info list pack pick join shift profile replay plan explain"
    COMPREPLY=()
    if [ "$COMP_CWORD" -eq 1 ]; then
        mapfile -t COMPREPLY < <(compgen -W "$commands help --help --version" -- "$word")
        return
    fi
    case $before in
    --bus) mapfile -t COMPREPLY < <(compgen -W "$(echo {0..15})" -- "$word"); return ;;
    --from | --count | --group | --by | --capacity | --every | --slots | --piece) return ;;
    --plan) _vin_plans "$word"; return ;;
    -o | --times | --times-out | --report | --events) mapfile -t COMPREPLY < <(compgen -f -- "$word"); return ;;
    esac
    case $command in
    help) mapfile -t COMPREPLY < <(compgen -W "$commands" -- "$word"); return ;;
    explain) mapfile -t COMPREPLY < <(compgen -W "$(echo {0..20})" -- "$word"); return ;;
    esac
    if [[ $word == -* ]]; then
        mapfile -t COMPREPLY < <(compgen -W "$(_vin_options "$command") --help" -- "$word")
        return
    fi
    for ((n = 2; n < COMP_CWORD; n++)); do
        case ${COMP_WORDS[n]} in
        -o | --times | --times-out | --report | --from | --count | --group | --bus | --by | --capacity | --events | --every | --slots | --plan | --piece) n=$((n + 1)) ;;
        -) files=$((files + 1)) ;;
        -*) ;;
        *) files=$((files + 1)) ;;
        esac
    done
    case $command:$files in # the first file of these is a plan
    compose:0 | read:0 | words:0 | items:0 | follow:0 | salvage:0 | check:0 | dump:0 | plan:0) _vin_plans "$word" ;;
    *) mapfile -t COMPREPLY < <(compgen -f -- "$word") ;;
    esac
}

complete -o filenames -F _vin vin

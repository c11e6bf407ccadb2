# Completion of bash for cola: modes, their options, and names of files. It asks `cola --help`, so it knows the modes of the
# launcher that it completes. To use it from a checkout: . docs/cola.bash

# _cola_calls LAUNCHER: the modes, a line each, with the words behind them.
_cola_calls() {
    "$1" --help 2>/dev/null | sed -n 's/^    cola //p' | tr -d '[]'
}

_cola() {
    local launcher=$1 word=$2 before=$3 calls call expected
    COMPREPLY=()
    calls=$(_cola_calls "$launcher")
    if [ "$COMP_CWORD" -eq 1 ]; then
        mapfile -t COMPREPLY < <(compgen -W "$(cut -d ' ' -f 1 <<<"$calls") help --help --version" -- "$word")
        return
    fi
    if [ "${COMP_WORDS[1]}" = help ]; then
        [ "$COMP_CWORD" -ne 2 ] ||
            mapfile -t COMPREPLY < <(compgen -W "$(cut -d ' ' -f 1 <<<"$calls") lines replies states statuses" -- "$word")
        return
    fi
    call=$(grep "^${COMP_WORDS[1]} " <<<"$calls") || return
    case $before in
    --mirror) mapfile -t COMPREPLY < <(compgen -f -- "$word"); return ;;
    --block) mapfile -t COMPREPLY < <(compgen -W '3 4 5 6 7 8 9' -- "$word"); return ;;
    --version) mapfile -t COMPREPLY < <(compgen -W '1 2' -- "$word"); return ;;
    --keys | --cache) return ;;
    esac
    expected=$(cut -d ' ' -f "$((COMP_CWORD))" <<<"$call")
    case $expected in
    FILE | TO) mapfile -t COMPREPLY < <(compgen -f -- "$word"); return ;;
    esac
    # The options of the mode that are not there yet.
    local option options=
    for option in $(tr ' ' '\n' <<<"$call" | grep '^--'); do
        [[ " ${COMP_WORDS[*]} " == *" $option "* ]] || options+=" $option"
    done
    mapfile -t COMPREPLY < <(compgen -W "$options" -- "$word")
}

complete -o filenames -F _cola cola

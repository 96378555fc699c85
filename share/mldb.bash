# Completion of mldb for bash.

# The names that `mldb show-policy` lists after a word: label, or user.
_mldb_declared() {
    mldb show-policy "$2" "$3" 2>/dev/null | sed -n "s/^$1 \([^ ]*\).*/\1/p"
}

_mldb() {
    local commands="run shell serve turn certify check explain show-policy help" word=${COMP_WORDS[COMP_CWORD]} command="" option="" at i
    local files=() options=""
    COMPREPLY=()
    # The command, which `explain` may stand before, and the words that are no option.
    for ((i = 1; i < COMP_CWORD; i++)); do
        at=${COMP_WORDS[i]}
        # bash takes `=` for a word of its own.
        if [ "$at" = "=" ]; then
            option=${COMP_WORDS[i - 1]}
        elif [ -n "$option" ]; then
            option=""
        elif [[ $at == --* ]]; then
            case $at in --store | --transactions | --certificates | --at) option=$at ;; esac
        elif [ -z "$command" ]; then
            command=$at
        elif [ "$command" = explain ] && [ ${#files[@]} = 0 ] && [[ " $commands " == *" $at "* ]]; then
            command=$at
        else
            files+=("${at/#\~/$HOME}")
        fi
    done
    [ "$word" != "=" ] || word=""
    case $command in
        "")
            mapfile -t COMPREPLY < <(compgen -W "$commands --help --version" -- "$word")
            return ;;
        run) options="--store --transactions --certificates --table --at --help" ;;
        shell | serve) options="--store --transactions --certificates --help" ;;
        turn) options="--store --at --help" ;;
        *) options="--help" ;;
    esac
    if [ "$option" = --at ]; then
        [ ${#files[@]} -lt 2 ] || mapfile -t COMPREPLY < <(compgen -W "$(_mldb_declared label "${files[@]:0:2}")" -- "$word")
        return
    fi
    if [ -z "$option" ] && [[ $word == -* ]]; then
        mapfile -t COMPREPLY < <(compgen -W "$options" -- "$word")
        return
    fi
    if [ -z "$option" ]; then
        case $command:${#files[@]} in
            shell:2) mapfile -t COMPREPLY < <(compgen -W "$(_mldb_declared label "${files[@]:0:2}")" -- "$word") && return ;;
            shell:3) mapfile -t COMPREPLY < <(compgen -W "$(_mldb_declared user "${files[@]:0:2}")" -- "$word") && return ;;
            explain:3)
                mapfile -t COMPREPLY < <(compgen -W "$(sed -n 's/^transaction \([^ ]*\).*/\1/p' "${files[2]}" 2>/dev/null)" -- "$word")
                return ;;
        esac
    fi
    mapfile -t COMPREPLY < <(compgen -f -- "$word")
    [ "$command" != explain ] || [ ${#files[@]} != 0 ] || mapfile -t -O "${#COMPREPLY[@]}" COMPREPLY < <(compgen -W "$commands" -- "$word")
    compopt -o filenames 2>/dev/null || true
}
complete -F _mldb mldb

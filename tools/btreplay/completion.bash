# Completion of btreplay, btrecord, btreport and btfleet for bash.

# Files that end in one of the patterns, and folders.
_btreplay_files() {
    compopt -o filenames 2>/dev/null
    mapfile -t COMPREPLY < <(compgen -d -- "$1"; compgen -f -X "!$2" -- "$1")
}

_btreplay() {
    local word=${COMP_WORDS[COMP_CWORD]} command= at given=0 skip=0 options="--proved --unproved --help"
    local commands="run check explain code gen big account verify vet prove help"
    COMPREPLY=()
    for ((at = 1; at < COMP_CWORD; at++)); do
        if ((skip)); then
            skip=0
        elif [[ ${COMP_WORDS[at]} == -e ]]; then
            skip=1 given=$((given + 1))
        elif [[ ${COMP_WORDS[at]} == - || ${COMP_WORDS[at]} != -* ]]; then
            if [[ $command ]]; then given=$((given + 1)); else command=${COMP_WORDS[at]}; fi
        fi
    done
    ((skip)) && return
    case $command in
    "") mapfile -t COMPREPLY < <(compgen -W "$commands $options --version" -- "$word") && return ;;
    help) ((given)) || mapfile -t COMPREPLY < <(compgen -W "$commands" -- "$word") && return ;;
    prove) options="--background --help" ;;
    run) options="-e --serial --stats --json $options" ;;
    account) options="-e --serial $options" ;;
    check | explain | code | verify | vet) options="-e $options" ;;
    esac
    if [[ $word == -* ]]; then
        mapfile -t COMPREPLY < <(compgen -W "$options" -- "$word")
    elif [[ $command == prove || $command == gen || $command == big ]]; then
        return
    elif ((given == 0)); then
        _btreplay_files "$word" "*.bt"
    elif ((given == 1)); then
        _btreplay_files "$word" "*.btr"
    elif ((given == 2)) && [[ $command == verify ]]; then
        _btreplay_files "$word" "*.account"
    fi
}

# The other tools tell their commands and options themselves.
_btreplay_tool() {
    local tool=${COMP_WORDS[0]} word=${COMP_WORDS[COMP_CWORD]}
    COMPREPLY=()
    if ((COMP_CWORD == 1)); then
        mapfile -t COMPREPLY < <(compgen -W "$("$tool" --help 2>/dev/null | sed -n 's/^    \([a-z][a-z-]*\) .*/\1/p')" -- "$word")
    elif [[ $word == -* ]]; then
        mapfile -t COMPREPLY < <(compgen -W "$("$tool" "${COMP_WORDS[1]}" --help 2>/dev/null | grep -o -e '--[a-z][a-z-]*' | sort -u)" -- "$word")
    fi
    ((${#COMPREPLY[@]})) || { compopt -o filenames 2>/dev/null; mapfile -t COMPREPLY < <(compgen -f -- "$word"); }
}

complete -F _btreplay btreplay
complete -F _btreplay_tool btrecord btreport btfleet

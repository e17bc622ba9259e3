# Completion of the words of `x25` and of the scripts for bash: `source share/x25.bash`, or put this into
# /usr/share/bash-completion/completions/x25, with links to it by the names of the scripts.

# .ci/tables completion
_x25_commands=(decode vectors sim station judge deframe frame tabs)
_x25_ends=(station deframe)
_x25_times=(--t1 --t3 --t20 --t21 --t22 --t23 --t25 --t26)
declare -gA _x25_of=(
    [decode]="--long --loose --wide --help"
    [vectors]="--help"
    [sim]="--down --events --long --loose --say-sizes --tap --wide --k --n2 --channels --message --help"
    [station]="--clock --long --loose --reasons --say-sizes --wide --k --n2 --channels --incoming --outgoing --message --t1 --t3 --t20 --t21 --t22 --t23 --t25 --t26 --help"
    [judge]="--long --loose --manners --strict --wide --at --k --size --window --help"
    [deframe]="--help"
    [frame]="--loose --help"
    [tabs]="--help"
)
# .ci/tables completion ends

_x25() {
    local word=${COMP_WORDS[COMP_CWORD]} words=
    COMPREPLY=()
    if ((COMP_CWORD == 1)); then
        words="${_x25_commands[*]} help --help --version"
        _x25_has_scripts && words+=" $_x25_scripts"
    else
        words=$(_x25_values "${COMP_WORDS[COMP_CWORD - 1]}") || words=$(_x25_words "${COMP_WORDS[1]}")
    fi
    # No word is taken twice.
    local -a given=("${COMP_WORDS[@]:2:COMP_CWORD-2}")
    local one left=
    for one in $words; do [[ $one == --* && " ${given[*]} " == *" $one "* ]] || left+=" $one"; done
    mapfile -t COMPREPLY < <(compgen -W "$left" -- "$word")
}

_x25_scripts="dump report convert pcap chart losses bridge pad"

# Some values of an option.
_x25_values() {
    case $1 in
        --at) echo line dte dce either ;;
        --k | --window) echo 1 2 3 4 5 6 7 ;;
        --size) echo 16 32 64 128 256 512 1024 2048 4096 ;;
        --n2) echo 1 10 255 ;;
        --channels) echo 1 2 4 16 ;;
        --incoming | --outgoing) echo 0 1 ;;
        --message) echo 4096 65535 ;;
        *) return 1 ;;
    esac
}

# What may stand after a command: an end, or its options, without times where there is no clock.
_x25_words() {
    local words=${_x25_of[$1]-} time
    if [[ $1 == help ]]; then
        ((COMP_CWORD > 2)) || echo "${_x25_commands[*]} help"
    elif [[ " $_x25_scripts " == *" $1 "* ]]; then
        _x25_options "${COMP_WORDS[@]:0:2}"
    elif [[ " ${_x25_ends[*]} " == *" $1 "* ]] && ((COMP_CWORD == 2)); then
        echo dte dce --help
    else
        for time in "${_x25_times[@]}"; do
            [[ " ${COMP_WORDS[*]} " == *" --clock "* ]] || words=${words/ $time / }
        done
        echo "$words"
    fi
}

# Whether `x25` is what is installed, which knows the scripts, or isn't there yet; the program by itself doesn't know them.
_x25_has_scripts() {
    local path
    path=$(type -P "${COMP_WORDS[0]}") || return 0
    [[ $(head -c 2 "$path" | tr -d '\0') == "#!" ]]
}

# The options that a command itself says it has, where one is begun; else files.
_x25_options() {
    [[ ${COMP_WORDS[COMP_CWORD]} != -* ]] || "$@" --help 2> /dev/null | grep -oE -- '--[a-z][a-z0-9-]*' | sort -u
}

_x25_script() {
    mapfile -t COMPREPLY < <(compgen -W "$(_x25_options "${COMP_WORDS[0]}")" -- "${COMP_WORDS[COMP_CWORD]}")
}

complete -F _x25 -o default x25
complete -F _x25_script -o default x25dump x25report pcap2x25 x25pcap x25bridge x25chart x25pad x25tools

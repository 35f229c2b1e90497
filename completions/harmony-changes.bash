# shellcheck shell=bash
# Completion of the words of harmony-changes in bash: --most and its number in front of --, and the names of six files.

# The words of a line are put together as those of harmony are, whose file stands beside this one.
# shellcheck source=completions/harmony.bash
source "$(dirname "${BASH_SOURCE[0]}")/harmony${BASH_SOURCE[0]##*harmony-changes}"

_harmony_changes() {
    local words word current names=() ended='' most='' number=''
    _harmony_words
    current=${words[-1]}
    for word in "${words[@]:1:${#words[@]}-2}"; do
        if [[ -n $number ]]; then
            number=
        elif [[ -z $ended && $word == -- ]]; then
            ended=yes
        elif [[ -z $ended && $word == --most ]]; then
            most=yes number=yes
        elif [[ -z $ended && $word == --most=* ]]; then
            most=yes
        else
            names+=("$word")
        fi
    done
    COMPREPLY=()
    if [[ -z $number && -z $ended && $current == -* ]]; then
        [[ -n $most ]] || mapfile -t COMPREPLY < <(compgen -W --most -- "$current")
        compopt +o default
    elif [[ -n $number || ${#names[@]} -ge 6 ]]; then
        compopt +o default
    fi
}

# Where the function offers nothing, bash offers files, unless it is told not to.
complete -o default -F _harmony_changes harmony-changes

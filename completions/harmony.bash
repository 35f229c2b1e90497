# shellcheck shell=bash
# Completion of the words of harmony in bash: its commands, --quiet in front of --, and files where a command has them.

# So many files has a command; gen has a number.
_harmony_files() {
    case $1 in
    sync | plan) echo 6 ;;
    view) echo 2 ;;
    check) echo 1 ;;
    *) echo 0 ;;
    esac
}

# Bash divides words at colons and the like too. What stands in the line without a space between is one word.
_harmony_words() {
    local piece line=${COMP_LINE:0:COMP_POINT}
    words=()
    for piece in "${COMP_WORDS[@]:0:COMP_CWORD+1}"; do
        if [[ $line == [[:space:]]* || ${#words[@]} == 0 ]]; then
            line=${line#"${line%%[![:space:]]*}"}
            words+=("$piece")
        else
            words[-1]+=$piece
        fi
        line=${line:${#piece}}
    done
}

_harmony() {
    local words word current names=() ended='' quiet=''
    _harmony_words
    current=${words[-1]}
    for word in "${words[@]:1:${#words[@]}-2}"; do
        if [[ -z $ended && $word == -- ]]; then
            ended=yes
        elif [[ -z $ended && $word == --quiet ]]; then
            quiet=yes
        else
            names+=("$word")
        fi
    done
    COMPREPLY=()
    if [[ -z $ended && $current == -* ]]; then
        [[ -n $quiet ]] || mapfile -t COMPREPLY < <(compgen -W --quiet -- "$current")
        compopt +o default
    elif [[ ${#names[@]} == 0 ]]; then
        mapfile -t COMPREPLY < <(compgen -W 'sync plan check view gen' -- "$current")
        compopt +o default
    elif ((${#names[@]} > $(_harmony_files "${names[0]}"))); then
        compopt +o default
    fi
}

# Where the function offers nothing, bash offers files, unless it is told not to.
complete -o default -F _harmony harmony

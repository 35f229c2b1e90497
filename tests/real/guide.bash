# shellcheck shell=bash
# The guide of docs/LENSES.md, whose files stand in examples/lenses: what it quotes of them is what they hold, and what
# it says that a wrong turn prints is what that prints. The examples themselves are run by program.bash.

readonly GUIDE=$top/docs/LENSES.md STEPS=$top/examples/lenses

# block_behind FILE: the block of the guide that follows the line which ends with the name of this file
block_behind() {
    awk -v name="\`$1\`:" '
        inside && /^```$/ { exit }
        inside { print }
        substr($0, length($0) - length(name) + 1) == name { found = 1 }
        found && /^```text$/ { inside = 1 }
    ' "$GUIDE"
}

# quotes FILE: the guide has a block of this file: a lens file as a whole, some lines of a schema, a part of a view
quotes() {
    local block text
    block=$(block_behind "$1")
    text=$(<"$top/$1")
    [[ -n $block ]] || fault "nothing of $1"
    case $1 in
    *.lens) [[ $text == "$block" ]] || fault "not as $1 is: $block" ;;
    */schema) [[ $'\n'$text$'\n' == *$'\n'"$block"$'\n'* ]] || fault "not lines of $1: $block" ;;
    *) [[ $text == *"$block"* ]] || fault "not in $1: $block" ;;
    esac
}

# Each lens file that is quoted stands behind the name of its file, so none can be another one.
quoted_files() {
    begin 'the guide: what it quotes'
    local name names lens_files
    names=$(grep -o '`examples/[^`]*`:$' "$GUIDE" | tr -d '`:')
    for name in $names; do
        quotes "$name"
    done
    lens_files=$(grep -c '^harmony lens 1$' "$GUIDE")
    [[ $lens_files == $(grep -c '\.lens$' <<<"$names") ]] || fault 'a lens file without the name of its file'
    finish
}

# views STEP LENS STATUS TEXT: what `view` prints of the table of a step, by this lens file
views() {
    cp "$STEPS/$1/before/contacts.csv" "$2" .
    cp ./* ../want
    run view table.lens contacts.csv >../out
    ends "$3" "$4"
}

# step NAME: a step of the guide, with its lens file, by which `view` prints what the guide quotes
step() {
    begin "the guide: step $1"
    grep -qF "\`examples/lenses/$1/before/table.lens\`:" "$GUIDE" || fault 'its lens file is missing'
    views "$1" "$STEPS/$1/before/table.lens" 0 "$(<"$STEPS/$1/after/view")"
    finish
}

# wrong_turn NAME STEP: the row of the guide has a part of a line that the lens file of this folder has and that of the
# step hasn't, and what the program prints. Where it has no lens file of its own, its schema isn't that of the step.
# `view` prints it too where it needs no schema.
wrong_turn() {
    local row written prints output before=$STEPS/$1/before of_step=$STEPS/$2/before
    begin "the guide: wrong turn $1"
    row=$(grep -F "| \`$1\` |" "$GUIDE")
    IFS='|' read -r _ _ written prints _ <<<"$row"
    output=$(<"$STEPS/$1/output")
    [[ $prints == " \`$output\` " ]] || fault "prints $prints"
    [[ $output == agreed || $output == *WrongView* ]] ||
        views "$2" "$before/table.lens" "$(<"$STEPS/$1/status")" "$output"
    if [[ ! -e $before/table.lens ]]; then
        ! cmp -s "$before/schema" "$of_step/schema" || fault 'nothing is wrong'
    else
        written=${written#*\`} written=${written%\`*}
        grep -vxFf "$of_step/table.lens" "$before/table.lens" | grep -qF -- "$written" ||
            fault "not in the lens file: $written"
    fi
    finish
}

# A folder of a wrong turn has the name of its step, and a word more.
quoted_files
for of in "$STEPS"/[1-9]*; do
    name=${of##*/}
    if [[ $name == *-*-* ]]; then
        wrong_turn "$name" "${name%-*}"
    else
        step "$name"
    fi
done

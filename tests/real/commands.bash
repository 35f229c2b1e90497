# shellcheck shell=bash
# The commands that write nothing, and harmony-changes where it is there: what they print, each fault that their files
# can have, and outputs that fail. Whatever comes of a run, each file stays as it is.

# The schema of what EVERY_LENS shows.
readonly EVERY_VIEW=$'harmony schema 1\nroot N0\nnode N0\n  other any N0\n  shape + 0..'

# The slots of each command, and what it prints over the files of unchanged.
readonly CHANGED=$'A + /"other"\nB + /"new"
A: 1 added, 0 deleted; 1 entries: 1 added, 0 deleted, 0 changed
B: 1 added, 0 deleted; 1 entries: 1 added, 0 deleted, 0 changed\nagreed'
readonly -A SLOTS_OF=([plan]="${SLOTS[*]}" [check]=lensA [view]='lensA A' [changes]="${SLOTS[*]}")
readonly -A PRINTED=([plan]=agreed [check]=$EVERY_VIEW [view]=$NEW [changes]=$CHANGED)
plans=(plan ${changes:+changes})
commands=("${plans[@]}" check view)
readonly plans commands

# unchanged [ARCHIVE A B]: files that stay, though a synchronisation would change them
unchanged() {
    if [[ $# == 0 ]]; then
        set -- "$OLD" "$NEW" "$OTHER"
    fi
    files "$@" "$@"
}

# words_of COMMAND: its words with the names of its files become `words`, and its program `chosen`
words_of() {
    local slot
    chosen=$program words=("$1")
    if [[ $1 == changes ]]; then
        chosen=$changes words=()
    fi
    for slot in ${SLOTS_OF[$1]}; do
        words+=("${path[$slot]}")
    done
}

# carry_out COMMAND WORD..: a run of a command with the names of its files, and with these words in front
carry_out() {
    words_of "$1"
    program=$chosen run "${@:2}" "${words[@]}" >../out
}

# leaves_alone COMMAND: each file keeps its bytes, its mode and its times, also one that a run which was broken off left
# behind
leaves_alone() {
    begin "$1: files are left alone"
    unchanged
    local modes=(444 400 440 640 604 755) place old
    for place in {0..5}; do
        chmod "${modes[place]}" "${SLOTS[place]}"
    done
    make A.harmony-new "$OTHER"
    cp A.harmony-new ../want
    old=$(stat -c '%n %i %a %s %y %z' ./*)
    carry_out "$1"
    [[ $(stat -c '%n %i %a %s %y %z' ./*) == "$old" ]] || fault 'a file was touched'
    ends 0 "${PRINTED[$1]}"
    finish
}

# only_reads COMMAND: by the calls of a run
only_reads() {
    begin "$1: nothing is opened to be written"
    unchanged
    under=(strace -f -o ../trace)
    carry_out "$1"
    changes_nothing || fault "$(head -c 200 ../calls)"
    ends 0 "${PRINTED[$1]}"
    finish
}

# planned TITLE, archive A B, STATUS LINES, archive A B after a synchronisation: a plan prints the same, and files stay
planned() {
    begin "plan: $1"
    unchanged "${@:2:3}"
    carry_out plan
    ends "$5" "$6"
    carry_out plan --quiet
    ends "$5" "$(tail -n 1 <<<"$6")"
    files "${@:2:3}" "${@:7:3}"
    sync
    ends "$5" "$6"
    finish
}

# shown COMMAND TITLE LENS FILE, STATUS LINES: what a lens file and a file of these texts come to
shown() {
    begin "$1: $2"
    unchanged "$OLD" "$4" "$OLD"
    with lensA "$3"
    carry_out "$1"
    ends "$5" "$6"
    finish
}

# A view is a tree as text, so a tree that is shown as it is comes out byte for byte.
shown_whole() {
    begin "view: the $1 tree"
    unchanged "$OLD" "$1" "$OLD"
    carry_out view
    cmp ../out A >../differ 2>&1 || fault "$(<../differ)"
    : >../out
    ends 0 ''
    finish
}

# made_up NUMBER LEFT RIGHT CONFLICTS: no file is made
made_up() {
    begin "gen: $1"
    run gen "$1" >../out
    ends 0 "gen $1: left $2 right $3 conflicts $4"
    finish
}

# stopped_by FAULT COMMAND SLOT STATUS TEXT: a run ends so, and prints what it has to once the fault is gone
stopped_by() {
    begin "$2, $3: $1"
    path[$3]=own/$3
    mkdir own ../want/own
    unchanged
    under=("${heeding[@]}")
    spoil "$1" "$3"
    carry_out "$2"
    mend "$1" "$3"
    ends "$4" "$5"
    carry_out "$2"
    ends 0 "${PRINTED[$2]}"
    finish
}

# each_slot FAULT STATUS WORD: of each command each slot has this fault
each_slot() {
    local command slot
    for command in "${commands[@]}"; do
        for slot in ${SLOTS_OF[$command]}; do
            # An archive may be missing.
            if [[ $3 == Missing && $slot == archive ]]; then
                continue
            fi
            stopped_by "$1" $command $slot "$2" "harmony: $3 $slot"
        done
    done
}

# no_fault_of_a_plan FAULT: it would keep a synchronisation from writing
no_fault_of_a_plan() {
    local command slot
    for command in "${plans[@]}"; do
        for slot in A B archive; do
            stopped_by "$1" "$command" $slot 0 "${PRINTED[$command]}"
        done
    done
}

# measured COMMAND SLOT: the file is larger by one byte than any may be
measured() {
    begin "$1, $2: a byte too many"
    unchanged
    with "$2" too-large
    carry_out "$1"
    ends 3 "harmony: TooLarge $2"
    finish
}

# one_file_read_twice COMMAND OTHER: the other name is of the file of A
one_file_read_twice() {
    begin "$1: two names of one file, $2"
    unchanged
    case $2 in
    path) path[A]=./lensA ;;
    *) $2 -f lensA A ;;
    esac
    cp -P A ../want
    carry_out "$1"
    ends 4 'harmony: ReadFault A'
    finish
}

# unheard_of FUNCTION STATUS COMMAND, archive A B: the output fails, and nothing else does
unheard_of() {
    begin "$1, status $2: $3 ${*:5:1}"
    unchanged "${@:4:3}"
    : >../out
    words_of "$3"
    program=$chosen "$1" "${words[@]}"
    ends "$2" ''
    finish
}

# output_of_each_fails FUNCTION
output_of_each_fails() {
    local command
    for command in "${commands[@]}"; do
        unheard_of "$1" 6 "$command" "$OLD" "$NEW" "$OTHER"
    done
    for command in "${plans[@]}"; do
        unheard_of "$1" 6 "$command" "$OLD" "$KEPT" "$GONE"
        unheard_of "$1" 3 "$command" "$OLD" absent "$OTHER"
        unheard_of "$1" 4 "$command" "$OLD" folder "$OTHER"
    done
    unheard_of "$1" 6 view "$OLD" largest "$OTHER"
    unheard_of "$1" 3 view "$OLD" '!' "$OTHER"
    unheard_of "$1" 3 view "$OLD" absent "$OTHER"
    unheard_of "$1" 4 view "$OLD" folder "$OTHER"

    begin "$1, gen"
    : >../out
    $1 gen 20
    ends 6 ''
    finish
}

for command in "${commands[@]}"; do
    leaves_alone "$command"
    if can_trace; then
        only_reads "$command"
    else
        skip "calls of $command" 'strace is not here, or may not be used'
    fi
done

planned 'both have changed' "$OLD" "$NEW" "$OTHER" 0 agreed "$BOTH" "$BOTH" "$BOTH"
planned 'nothing has changed' "$OLD" "$OLD" "$OLD" 0 agreed "$OLD" "$OLD" "$OLD"
planned 'no archive' absent "$NEW" "$OTHER" 0 agreed "$BOTH" "$BOTH" "$BOTH"
planned 'a conflict' "$OLD" "$KEPT" "$GONE" 1 $'conflict /"old" lost /"old"/"new"\nconflicts 1' \
    "$AT_OLD" "$KEPT" "$GONE"
planned 'two conflicts' '{"a","b"}' '{"a":{"1"}}' '{"b":{"2"}}' 1 \
    $'conflict /"a" lost /"a"/"1"\nconflict /"b" lost /"b"/"2"\nconflicts 2' \
    '{"a":!,"b":!}' '{"a":{"1"}}' '{"b":{"2"}}'
planned 'an earlier conflict' '!' "$NEW" "$OTHER" 1 $'conflict / earlier\nconflicts 1' '!' "$NEW" "$OTHER"
planned 'A would grow too large' absent '8388610:{"..."}' '8388609:{"b..."}' 3 'harmony: Overgrown A 16777217' \
    absent '8388610:{"..."}' '8388609:{"b..."}'
planned 'no B' "$OLD" "$OLD" absent 3 'harmony: Missing B' "$OLD" "$OLD" absent

shown check 'the schema of an address book' \
    $'harmony lens 1\nformat tree root=R\nnode R\n  edge b V\n  edge a V\n  shape a ? b
node V\n  other filled Empty\n  shape + 1..1\nmain = rename(a,c)' \
    "$OLD" 0 $'harmony schema 1\nroot N0\nnode N0\n  edge "b" N1\n  edge "c" N1\n  shape "c" ? "b"
node N1\n  other filled N2\n  shape + 1..1\nnode N2\n  shape'
shown check 'no lens file' "$OLD" "$OLD" 3 'harmony: BadLens lensA 1'
shown check 'an empty lens file' empty "$OLD" 3 'harmony: BadLens lensA 1'
shown check 'the largest lens file' largest-lens "$OLD" 0 "$EVERY_VIEW"
shown view 'no lens file' "$OLD" "$OLD" 3 'harmony: BadLens lensA 1'
shown view 'the largest lens file' largest-lens "$OTHER" 0 "$OTHER"
shown view 'a table' $'harmony lens 1\nformat csv key=Name show=Mail\nmain = id' \
    $'Name,Note,Mail\nAnn,friend,ann@example.org\nBob,,' \
    0 '{"Ann":{"*h":{"Mail":{"ann@example.org"}},"*t"},"Bob":{"*h","*t"}}'
shown view 'an empty file' "$EVERY_LENS" empty 3 'harmony: BadReplica A BadItem 0'
shown view 'a mark' "$EVERY_LENS" '!' 3 'harmony: BadReplica A BadItem 0'
shown view 'a tree that is too deep' "$EVERY_LENS" too-deep 3 'harmony: BadReplica A TooDeep 1001'
shown_whole largest
shown_whole deepest

made_up 1 1 1 0
made_up 1000 900 950 50
made_up 50000 45000 47500 2500

each_slot 'no file' 3 Missing
each_slot 'a link to nothing' 3 Missing
each_slot 'a folder' 4 ReadFault
each_slot 'a pipe' 4 ReadFault
each_slot 'a link to a device without bytes' 4 ReadFault
each_slot 'a link to a device without an end' 4 ReadFault
each_slot 'a link to itself' 4 ReadFault
each_slot 'a file in place of the folder' 4 ReadFault
each_slot 'no folder' 4 ReadFault
each_slot 'an empty name' 4 ReadFault
if can_heed; then
    each_slot 'no permission to read' 4 ReadFault
    each_slot 'no permission to enter the folder' 4 ReadFault
    no_fault_of_a_plan 'no permission to write into the folder'
else
    skip 'permissions of what is only read' "root passes over them, and can't run without this right here"
fi
no_fault_of_a_plan 'a long name'
no_fault_of_a_plan 'a folder where the new file is made'
measured check lensA
measured view lensA
measured view A
for command in "${plans[@]}"; do
    measured "$command" archive
    measured "$command" B
done
one_file_read_twice view path
one_file_read_twice view ln
one_file_read_twice view 'ln -s'

if [[ -c /dev/full ]]; then
    output_of_each_fails to_full
else
    skip 'output of the other commands to a full device' 'there is no /dev/full'
fi
output_of_each_fails to_closed
output_of_each_fails to_closed_pipe

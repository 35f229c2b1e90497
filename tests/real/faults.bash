# shellcheck shell=bash
# Each slot with each fault that a file, its folder or its disk can have, and outputs that fail. The run tells it, no
# file is torn, and once the fault is gone a further run ends as one that has never met it.

# A name that leaves no room for .harmony-new behind it, on most disks.
long=$(printf 'n%.0s' {1..250})
readonly long

# Root passes over permissions, and heeds them only without this right.
heeding=()
if [[ $EUID == 0 ]]; then
    heeding=(setpriv --inh-caps=-dac_override,-dac_read_search --bounding-set=-dac_override,-dac_read_search)
fi

can_heed() {
    : >"$scratch/locked"
    chmod 000 "$scratch/locked"
    "${heeding[@]}" true 2>/dev/null && ! "${heeding[@]}" cat "$scratch/locked" 2>/dev/null
}

make_socket() {
    python3 -c 'import socket, sys; socket.socket(socket.AF_UNIX).bind(sys.argv[1])' "$1" 2>/dev/null
}

# spoil FAULT SLOT: the file of the slot is in a folder of its own
spoil() {
    local file=own/$2
    case $1 in
    'no permission to read') chmod 000 "$file" ;;
    'no permission to enter the folder') chmod 000 own ;;
    'no permission to read the folder') chmod 300 own ;;
    'no permission to write into the folder') chmod 555 own ;;
    'a folder') mv "$file" ../aside && mkdir "$file" ;;
    'a pipe') mv "$file" ../aside && mkfifo "$file" ;;
    'a socket') mv "$file" ../aside && make_socket "$file" ;;
    'a link to a device without bytes') mv "$file" ../aside && ln -s /dev/null "$file" ;;
    'a link to a device without an end') mv "$file" ../aside && ln -s /dev/zero "$file" ;;
    'a link to itself') mv "$file" ../aside && ln -s "$2" "$file" ;;
    'a link to nothing') mv "$file" ../aside && ln -s nowhere "$file" ;;
    'a link into no folder') mv "$file" ../aside && ln -s nowhere/file "$file" ;;
    'a link into a folder that may not be written to')
        mv own aside && mkdir own && ln -s "../aside/$2" "$file" && chmod 555 aside
        ;;
    'no file') mv "$file" ../aside ;;
    'no folder') mv own ../aside ;;
    'a file in place of the folder') mv own ../aside && : >own ;;
    'an empty name') path[$2]='' ;;
    'a long name') mv "$file" "own/$long" && path[$2]=own/$long ;;
    'a folder where the new file is made') mkdir "$file.harmony-new" ;;
    'a full disk')
        mv "$file" ../aside && mount -t tmpfs -o size=8k none own && mv ../aside "$file"
        head -c 1m /dev/zero >own/filling 2>/dev/null
        ;;
    esac
}

# mend FAULT SLOT: takes back what was done, where it is still as it was made
mend() {
    local file=own/$2
    case $1 in
    'no permission to read') [[ $(stat -c %a "$file") == 0 ]] && chmod 644 "$file" ;;
    'no permission to '*) chmod 755 own ;;
    'a folder') rmdir "$file" && mv ../aside "$file" ;;
    'a pipe') [[ -p $file ]] && rm "$file" && mv ../aside "$file" ;;
    'a socket') [[ -S $file ]] && rm "$file" && mv ../aside "$file" ;;
    'a link into a folder that may not be written to')
        [[ -L $file ]] && rm "$file" && rmdir own && chmod 755 aside && mv aside own
        ;;
    'a link '*) [[ -L $file ]] && rm "$file" && mv ../aside "$file" ;;
    'no file') [[ ! -e $file ]] && mv ../aside "$file" ;;
    'no folder') [[ ! -e own ]] && mv ../aside own ;;
    'a file in place of the folder') [[ -f own && ! -s own ]] && rm own && mv ../aside own ;;
    'a long name') mv "own/$long" "$file" ;;
    'a folder where the new file is made') rmdir "$file.harmony-new" ;;
    'a full disk') rm own/filling && mkdir ../aside && mv own/* ../aside && umount own && mv ../aside/* own ;;
    esac || fault "$1 has changed"
    path[$2]=$file
}

# with_fault FAULT SLOT STATUS LINE SLOT: the run stops at the last of these, or at none
with_fault() {
    begin "$2: $1"
    path[$2]=own/$2
    mkdir own ../want/own
    both_change
    under=("${heeding[@]}")
    spoil "$1" "$2"
    sync
    mend "$1" "$2"
    stopped_at "$5"
    ends "$3" "$4"
    stopped_at none
    sync
    ends 0 agreed
    finish
}

# not_read FAULT
not_read() {
    local slot
    for slot in "${SLOTS[@]}"; do
        with_fault "$1" $slot 4 "harmony: ReadFault $slot" A
    done
}

# missing FAULT: an archive may be missing
missing() {
    local slot
    for slot in "${READ_ONLY[@]}" A B; do
        with_fault "$1" $slot 3 "harmony: Missing $slot" A
    done
}

# not_written FAULT: no run writes the schema or a lens file
not_written() {
    local slot
    for slot in "${READ_ONLY[@]}"; do
        with_fault "$1" $slot 0 agreed none
    done
    for slot in A B archive; do
        with_fault "$1" $slot 4 "harmony: WriteFault $slot" $slot
    done
}

# limited SLOT, archive A B before, STATUS LINES, archive A B afterwards: the new file of this slot is longer than a
# file may be here. At the limit a signal ends the run, or the rest is refused where the signal is ignored.
limited() {
    begin "$1: a limit in the midst of the new file"
    files "$2" "$3" "$4" "$7" "$8" "$9"
    stopped_at "$1"
    under=(bash -c 'ulimit -c 0 -f 1; exec "$@"' limited)
    { sync; } 2>/dev/null
    head -c 1024 "$1.harmony-new" >"../want/$1.harmony-new"
    ends $((128 + $(kill -l XFSZ))) ''
    rm "../want/$1.harmony-new"
    under=(bash -c 'ulimit -f 1; trap "" XFSZ; exec "$@"' limited)
    sync
    ends 4 "harmony: WriteFault $1"
    stopped_at none
    under=()
    sync
    ends "$5" "$6"
    finish
}

# Less memory than the bytes of A take.
no_memory() {
    begin 'no memory'
    files "$OLD" '8000000:{"..."}' "$OLD" '8000000:{"..."}' '8000000:{"..."}' '8000000:{"..."}'
    stopped_at A
    under=(bash -c 'ulimit -v 8000; exec "$@"' limited)
    sync
    ends 5 ''
    stopped_at none
    under=()
    sync
    ends 0 agreed
    finish
}

# The three kinds of standard output that fail. A report that isn't taken is a fault, with the files written;
# for a refusal its own status stands. A closed pipe must not end the program by a signal.
to_full() {
    run "$@" >/dev/full
}

to_closed() {
    run "$@" >&-
}

to_closed_pipe() {
    exec 3> >(:)
    wait $!
    run "$@" >&3
    exec 3>&-
}

# unheard FUNCTION STATUS, archive A B before, archive A B afterwards, STATUS LINES of a further run that is heard
unheard() {
    begin "$1, status $2: ${*:3:3}"
    files "${@:3:6}"
    : >../out
    $1 sync "${SLOTS[@]}"
    ends "$2" ''
    sync
    ends "$9" "${10}"
    finish
}

# output_fails FUNCTION
output_fails() {
    unheard "$1" 6 "$OLD" "$NEW" "$OTHER" "$BOTH" "$BOTH" "$BOTH" 0 agreed
    unheard "$1" 6 "$OLD" "$KEPT" "$GONE" "$AT_OLD" "$KEPT" "$GONE" 1 $'conflict /"old" earlier\nconflicts 1'
    unheard "$1" 3 "$OLD" absent "$OLD" "$OLD" absent "$OLD" 3 'harmony: Missing A'
    unheard "$1" 4 "$OLD" folder "$OLD" "$OLD" folder "$OLD" 4 'harmony: ReadFault A'

    begin "$1, usage"
    no_change
    : >../out
    $1
    ends 2 ''
    finish
}

# A folder that can't be read can't be flushed, which is no fault.
if can_heed; then
    not_read 'no permission to read'
    not_read 'no permission to enter the folder'
    not_written 'no permission to write into the folder'
    not_written 'a link into a folder that may not be written to'
    for slot in "${SLOTS[@]}"; do
        with_fault 'no permission to read the folder' $slot 0 agreed none
    done
else
    skip 'permissions' "root passes over them, and can't run without this right here"
    heeding=()
fi

not_read 'a folder'
# Nothing is waited for and nothing is read without an end: what isn't a file isn't opened.
not_read 'a pipe'
not_read 'a link to a device without bytes'
not_read 'a link to a device without an end'
if make_socket "$scratch/socket"; then
    not_read 'a socket'
else
    skip 'sockets' 'none can be made here'
fi
not_read 'a link to itself'
not_read 'a file in place of the folder'
missing 'no file'
missing 'a link to nothing'
not_read 'no folder'
not_read 'an empty name'
not_read 'a link into no folder'
not_written 'a long name'
not_written 'a folder where the new file is made'

if can_mount; then
    not_written 'a full disk'
else
    skip 'full disks' 'no small disk can be mounted here'
fi

limited A "$OLD" "$NEW" '1100:{"x..."}' 0 agreed '1106:{"new","x..."}' '1106:{"new","x..."}' '1106:{"new","x..."}'
limited B '{"c":!}' '{"c","new"}' '1100:{"c":{"x..."}}' 1 $'conflict /"c" earlier\nconflicts 1' \
    '{"c":!,"new"}' '{"c","new"}' '1106:{"c":{"x..."},"new"}'
# A mark takes two bytes more than what stands there in A.
limited archive '{"c":!}' '1020:{"c","x..."}' '{"y"}' 1 $'conflict /"c" earlier\nconflicts 1' \
    '1026:{"c":!,"x...","y"}' '1024:{"c","x...","y"}' '1020:{"x...","y"}'
no_memory

if [[ -c /dev/full ]]; then
    output_fails to_full
else
    skip 'output to a full device' 'there is no /dev/full'
fi
output_fails to_closed
output_fails to_closed_pipe

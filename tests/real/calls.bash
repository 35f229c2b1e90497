# shellcheck shell=bash
# A run is killed at each of its calls of the system, and each call fails. No file is torn, those that are new are so in
# the order A, B, archive, and a further run ends as one that was left alone.

# What a run prints, and what a further one prints once the archive has the mark.
readonly LOST=$'conflict /"a" lost /"a"/"2"\nconflicts 1' EARLIER=$'conflict /"a" earlier\nconflicts 1'


# Files that a run makes different from each other and from what they were.
three_changes() {
    files '{"a":{"1"},"b"}' '{"a":{"2"},"b","d"}' '{"b","c"}' \
        '{"a":!,"b","c","d"}' '{"a":{"2"},"b","c","d"}' '{"b","c","d"}'
    chmod 600 archive A B
}

# Lists the calls of a run from where it opens the schema: the name of the call, that it is the first of this name or
# the second and so on, and what it is for: `read SLOT`, `write SLOT`, which begins where a link would be followed,
# `flush SLOT` once the new file has its name, `print` or `end`.
list_calls() {
    begin 'a run that is left alone'
    three_changes
    under=(strace -o ../trace)
    sync
    ends 1 "$LOST"
    mapfile -t calls < <(awk '
        !match($0, /^[a-z0-9_]+\(/) { next }
        { call = substr($0, 1, RLENGTH - 1); number[call]++ }
        call ~ /open|stat|unlink|rename/ && match($0, /"[^"]+"/) {
            name = substr($0, RSTART + 1, RLENGTH - 2)
            if (name == "schema") step = "read"
            if (name == ".") step = "flush"
            else slot = name
            if (sub(/\.harmony-new$/, "", slot) || /NOFOLLOW/) step = "write"
        }
        /^write[a-z0-9]*\(1,/ { step = "print" }
        call ~ /^exit/ { step = "end" }
        step { print call, number[call], step, slot }
    ' ../trace)
    finish
}

# Each new file is flushed after its last byte and before it takes its name, and its folder behind that.
flushed() {
    begin 'new files and their folders are flushed'
    local slot order
    for slot in A B archive; do
        order=$(printf '%s\n' "${calls[@]}" | grep -E " (write|flush) $slot\$" | grep -oE '^(open|write|fsync|rename)')
        order=${order//$'\n'/ }
        [[ $order =~ ^open(' write')+\ fsync\ rename\ open\ fsync$ ]] || fault "$slot: $order"
    done
    finish
}

# stopped_behind SLOT: this slot has its new file, and those behind it don't
stopped_behind() {
    case $1 in
    A) stopped_at B ;;
    B) stopped_at archive ;;
    archive) stopped_at none ;;
    esac
}

# Ends a check with a further run.
further() {
    local slot
    under=()
    printed=$LOST
    ! cmp -s archive <(printf '%s\n' "${after[0]}") || printed=$EARLIER
    stopped_at none
    sync
    for slot in archive A B; do
        has_mode $slot 600
    done
    ends 1 "$printed"
    finish
}

# killed CALL NUMBER STEP SLOT: what is left of a new file is no more open than the one that it was to replace
killed() {
    begin "killed at $1 $2"
    three_changes
    under=(strace -o /dev/null -e "inject=$1:signal=KILL:when=$2")
    { sync; } 2>/dev/null
    printed=''
    case $3 in
    read) stopped_at A ;;
    write) stopped_at "$4" ;;
    flush) stopped_behind "$4" ;;
    end) printed=$LOST ;;
    esac
    if [[ $3 == write && -e $4.harmony-new ]]; then
        has_mode "$4.harmony-new" 600
        cp "$4.harmony-new" ../want
    fi
    ends $((128 + $(kill -l KILL))) "$printed"
    rm -f ../want/*.harmony-new
    further
}

# fails CALL NUMBER STEP SLOT ERROR: what was left behind and can't be removed isn't written to; that a file wasn't
# closed is no fault, and neither is a folder that may not be read or is on a disk that flushes none
fails() {
    begin "$1 $2 fails with $5"
    three_changes
    [[ $1 != unlink* ]] || ln -s elsewhere "$4.harmony-new"
    under=(strace -o /dev/null -e "inject=$1:error=$5:when=$2")
    sync
    case $3-$1-$5 in
    *-close-* | flush-open*-EACCES | flush-fsync-EINVAL) ends 1 "$LOST" ;;
    read-*) stopped_at A && ends 4 "harmony: ReadFault $4" ;;
    write-*) stopped_at "$4" && ends 4 "harmony: WriteFault $4" ;;
    flush-*) stopped_behind "$4" && ends 4 "harmony: WriteFault $4" ;;
    print-*) ends 6 '' ;;
    esac
    further
}

# meanwhile SLOT WORD: another program has changed this file since it was loaded, or has put a pipe into its place, so it
# stays as that program left it.
# The run waits before it closes the last file, which was read.
meanwhile() {
    begin "$1 is $2 meanwhile"
    read -r name number _ < <(printf '%s\n' "${calls[@]}" | grep '^close .* read B$')
    if [[ $2 == made ]]; then
        files absent '{"a"}' '{"b"}' '{"a","b"}' '{"a","b"}' '{"a","b"}'
        number=$((number - 1))
    else
        three_changes
    fi
    stopped_at "$1"
    under=(strace -o ../trace -e "inject=$name:delay_enter=2000000:when=$number")
    {
        for ((i = 0; i < 200; i++)); do
            awk '/"B"/ { opened = 1 } opened && /^read.* = 0$/ { found = 1 } END { exit !found }' ../trace 2>/dev/null && break
            sleep 0.05
        done
        case $2 in
        replaced) make ../edited '{"edited"}' && mv ../edited "$1" ;;
        rewritten | made) make "$1" '{"edited"}' ;;
        removed) rm "$1" ;;
        piped) rm "$1" && mkfifo "$1" ;;
        esac
    } &
    sync
    wait $!
    rm -f "../want/$1"
    case $2 in
    removed) ;;
    piped) [[ -p $1 ]] && rm "$1" ;;
    *) make "../want/$1" '{"edited"}' ;;
    esac || fault "$1 has changed"
    ends 4 "harmony: WriteFault $1"
    finish
}

# errors_of CALL STEP
errors_of() {
    case $2-$1 in
    read-open*) echo EACCES EIO ;;
    write-open*) echo EROFS ENOSPC ;;
    flush-open*) echo EACCES EIO ;;
    flush-fsync) echo EINVAL EIO ;;
    *-write*) echo ENOSPC EIO ;;
    *-rename*) echo EACCES EROFS ;;
    *-unlink* | *-fchmod*) echo EPERM ;;
    *-read | *stat* | *-fsync | *-close) echo EIO ;;
    esac
}

if can_trace; then
    list_calls
    flushed
    for call in "${calls[@]}"; do
        read -r name number step slot <<<"$call"
        killed "$name" "$number" "$step" "$slot"
        for error in $(errors_of "$name" "$step"); do
            fails "$name" "$number" "$step" "$slot" "$error"
        done
    done
    for slot in A B archive; do
        for word in replaced rewritten removed piped; do
            meanwhile $slot $word
        done
    done
    meanwhile archive made
else
    skip 'runs that are killed, and calls that fail' 'strace is not here, or may not be used'
fi

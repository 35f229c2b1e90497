# shellcheck shell=bash
# What becomes of modes and of symbolic links, of what stands where a new file is made, of files with two names, and of
# those that need not change.

# modes_stay SCHEMA LENS_A LENS_B ARCHIVE A B: each file keeps its own, whatever mode the caller's new files have
modes_stay() {
    begin "modes $* stay"
    both_change
    local modes=("$@") place
    for place in {0..5}; do
        chmod "${modes[place]}" "${SLOTS[place]}"
    done
    umask 077
    sync
    umask 022
    for place in {0..5}; do
        has_mode "${SLOTS[place]}" "${modes[place]}"
    done
    ends 0 agreed
    finish
}

# An archive that wasn't there is as open as any new file of the caller's.
new_archive_mode() {
    begin 'the mode of a new archive'
    files absent "$NEW" "$NEW" "$NEW" "$NEW" "$NEW"
    umask 027
    sync
    umask 022
    has_mode archive 640
    ends 0 agreed
    finish
}

# linked SLOT: a symbolic link stays, and the file that it leads to by way of another one is replaced, with its mode
linked() {
    begin "a symbolic link as $1"
    both_change
    for folder in . ../want; do
        mkdir $folder/shared
        mv "$folder/$1" $folder/shared/target
        ln -s target $folder/shared/link
        ln -s shared/link "$folder/$1"
    done
    chmod 600 shared/target
    sync
    has_mode shared/target 600
    ends 0 agreed
    finish
}

# The files that a run only reads are read through symbolic links, which stay.
linked_to_read() {
    begin 'symbolic links as schema and lens files'
    both_change
    for folder in . ../want; do
        mkdir $folder/shared
        for slot in "${READ_ONLY[@]}"; do
            mv $folder/$slot $folder/shared
            ln -s shared/$slot $folder/$slot
        done
    done
    sync
    ends 0 agreed
    finish
}

# An archive that leads to nothing isn't there. It comes to be where the link leads.
archive_linked_to_nothing() {
    begin 'a symbolic link to nothing as archive'
    both_change
    mkdir shared ../want/shared
    rm archive
    mv ../want/archive ../want/shared/archive
    ln -s shared/archive archive
    ln -s shared/archive ../want/archive
    sync
    ends 0 agreed
    finish
}

# A device isn't read, also where that would give no bytes, and isn't replaced.
device_as_archive() {
    begin 'a device as archive'
    files absent "$NEW" "$OTHER" absent "$NEW" "$OTHER"
    ln -s /dev/null archive
    ln -s /dev/null ../want/archive
    sync
    [[ -c /dev/null ]] || fault '/dev/null was replaced'
    ends 4 'harmony: ReadFault archive'
    finish
}

# What a run that was broken off left behind is in nobody's way, lends its mode to no file, and is gone afterwards.
# No run writes the schema or a lens file, so what has a name like this beside them is somebody else's.
left_behind() {
    begin 'files left behind'
    both_change
    for slot in "${READ_ONLY[@]}"; do
        make $slot.harmony-new "$OTHER"
        make ../want/$slot.harmony-new "$OTHER"
    done
    chmod 600 archive A B
    for slot in archive A B; do
        make $slot.harmony-new '{"a longer text of a run that was broken off"}'
    done
    chmod 444 B.harmony-new
    sync
    for slot in archive A B; do
        has_mode $slot 600
    done
    ends 0 agreed
    finish
}

# Nothing is written through a symbolic link that stands where the new file is made.
link_left_behind() {
    begin 'a symbolic link left behind'
    both_change
    make elsewhere "$OTHER"
    make ../want/elsewhere "$OTHER"
    for slot in archive A B; do
        ln -s elsewhere $slot.harmony-new
    done
    sync
    ends 0 agreed
    finish
}

# one_file SLOT OTHER COMMAND: the other slot has the file of this one, under a name that the command gives it
one_file() {
    begin "$2 is the file of $1: $3"
    both_change
    if [[ $3 == path ]]; then
        rm "$2" "../want/$2"
        path[$2]=./$1
    else
        $3 -f "$1" "$2"
    fi
    cp -P lensA lensB archive A B ../want 2>/dev/null
    sync
    ends 4 "harmony: ReadFault $2"
    finish
}

# beside SLOT OTHER: the other slot has the name that the new file of this one would have
beside() {
    begin "$2 stands where the new file of $1 would be made"
    path[$2]=$1.harmony-new
    both_change
    stopped_at "$1"
    sync
    ends 4 "harmony: WriteFault $1"
    finish
}

# state_of FILE..: what a write, also one of the same bytes, would change
state_of() {
    stat -c '%n %i %s %y %z' "$@"
}

# untouched TITLE ARCHIVE A B SLOT..: these slots have what they are to have, and are left alone
untouched() {
    begin "left alone: $1"
    files "$2" "$3" "$4" "$3" "$3" "$3"
    local old
    old=$(state_of "${@:5}")
    sync
    [[ $(state_of "${@:5}") == "$old" ]] || fault 'a file was touched'
    ends 0 agreed
    finish
}

# The files that a run only reads are left alone whatever happens.
only_read() {
    begin 'schema and lens files are left alone'
    both_change
    local old
    old=$(state_of "${READ_ONLY[@]}")
    sync
    [[ $(state_of "${READ_ONLY[@]}") == "$old" ]] || fault 'a file was touched'
    ends 0 agreed
    finish
}

# changes_nothing: no call of a traced run changes a file, or writes to anything but the output
changes_nothing() {
    ! grep -E '^[0-9 ]*(rename|unlink|fsync|fdatasync|f?chmod|ftruncate|write[a-z0-9]*\([^1]|open.*O_(WRONLY|RDWR|CREAT))' ../trace >../calls
}

# Files that are as they are to be are read, and that is all.
nothing_done() {
    begin 'files of the greatest size that need not change'
    files largest largest largest largest largest largest
    local old
    old=$(state_of "${SLOTS[@]}")
    under=(strace -f -o ../trace)
    sync
    [[ $(state_of "${SLOTS[@]}") == "$old" ]] || fault 'a file was touched'
    changes_nothing || fault "$(head -c 200 ../calls)"
    ends 0 agreed
    finish
}

# Files on two disks.
two_disks() {
    begin 'files on two disks'
    mkdir own ../want/own
    mount -t tmpfs -o size=64k none own
    path[B]=own/B
    path[archive]=own/archive
    both_change
    sync
    ends 0 agreed
    sync
    ends 0 agreed
    umount own
    finish
}

modes_stay 600 600 600 600 600 600
modes_stay 444 400 440 640 644 666
modes_stay 640 755 777 755 400 777
new_archive_mode
linked_to_read
linked archive
linked A
linked B
archive_linked_to_nothing
device_as_archive
left_behind
link_left_behind
one_file A B path
one_file A B ln
one_file A B 'ln -s'
one_file archive A ln
one_file lensA lensB path
one_file lensB archive ln
beside A B
beside B A
beside A archive
beside B lensA
beside archive schema
untouched 'all three' "$NEW" "$NEW" "$NEW" archive A B
untouched 'A has changed' "$OLD" "$NEW" "$OLD" A
untouched 'B and the archive are new already' "$NEW" "$NEW" "$NEW" B archive
only_read
if can_trace; then
    nothing_done
else
    skip 'calls of a run in which nothing changes' 'strace is not here, or may not be used'
fi
if can_mount; then
    two_disks
else
    skip 'files on two disks' 'no small disk can be mounted here'
fi

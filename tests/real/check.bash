# shellcheck shell=bash
# One check: begin, make files, run, compare, finish. The folder of a check is `now`, and `../want` has what must be in
# it afterwards.

readonly OLD='{"old"}' NEW='{"new"}' OTHER='{"other"}' BOTH='{"new","other"}'
# Three files of which A has changed what B has deleted, and the archive that comes of them.
readonly KEPT='{"old":{"new"}}' GONE='{}' AT_OLD='{"old":!}'
# A schema that every tree is a member of, and the lens file by which a file of any tree is read as it is.
readonly EVERY_NODE=$'node R\n  other any R\n  shape + 0..'
readonly EVERY=$'harmony schema 1\nroot R\n'$EVERY_NODE
readonly EVERY_LENS=$'harmony lens 1\nformat tree root=R\n'$EVERY_NODE$'\nmain = id'
# The greatest size of a file, the greatest depth of a tree, the most nodes of a schema and the most shapes of a node.
readonly LARGEST=16777216 DEEPEST=1000 MOST_NODES=1000 MOST_SHAPES=256

passed=0 failed=0 skipped=0

# The slots, in the order in which their files are loaded, and those of them that no run writes.
readonly SLOTS=(schema lensA lensB archive A B) READ_ONLY=(schema lensA lensB)

# The names of the six files, and the words of a command that the program is to run under.
declare -A path
under=()

can_trace() {
    strace -o /dev/null -e inject=exit_group:error=EIO:when=2 true 2>/dev/null
}

can_mount() {
    mkdir -p "$scratch/disk"
    mount -t tmpfs -o size=8k none "$scratch/disk" 2>/dev/null && umount "$scratch/disk"
}

# Begins a check in an empty folder.
begin() {
    title=$1
    faults=()
    under=()
    path=([schema]=schema [lensA]=lensA [lensB]=lensB [archive]=archive [A]=A [B]=B)
    cd "$scratch" || exit
    rm -rf case
    mkdir -p case/now case/want
    cd case/now || exit
}

fault() {
    faults+=("$1")
}

finish() {
    if [[ ${#faults[@]} == 0 ]]; then
        passed=$((passed + 1))
    else
        failed=$((failed + 1))
        printf 'FAILED %s\n' "${title@Q}"
        printf '    %s\n' "${faults[@]}"
    fi
}

skip() {
    skipped=$((skipped + 1))
    printf 'skipped %s: %s\n' "$1" "$2"
}

# filled SIZE:TEXT: the text, with so many a in place of its dots that it has so many bytes with its line feed
filled() {
    local size=${1%%:*} text=${1#*:}
    local before=${text%%...*} after=${text#*...}
    printf %s "$before"
    head -c $((size - ${#before} - ${#after} - 1)) /dev/zero | tr '\0' a
    printf '%s\n' "$after"
}

# A tree of one name, in so many bytes.
text_of_size() {
    filled "$1:{\"...\"}"
}

# A tree of so many names, each under the one before, and the last one among those given.
text_of_depth() {
    printf '{"a":%.0s' $(seq 2 "$1")
    printf '%s' "${2:-"{\"a\"}"}"
    printf '}%.0s' $(seq 2 "$1")
    printf '\n'
}

# A text, and behind it a comment, in so many bytes.
commented() {
    printf '%s\n#' "$2"
    head -c $(($1 - ${#2} - 3)) /dev/zero | tr '\0' a
    printf '\n'
}

# The schema of every tree, with so many nodes.
schema_of_nodes() {
    printf '%s\n' "$EVERY"
    printf 'node N%d\n  shape\n' $(seq 2 "$1")
}

# The schema of every tree, whose node has so many shapes.
schema_of_shapes() {
    printf '%s\n' "$EVERY"
    printf '  shape + 0..%d\n' $(seq 2 "$1")
}

# Makes the file $1 be what $2 says: one of the words below, a size and a text to be filled, or a text without its
# line feed.
make() {
    case $2 in
    absent) ;;
    empty) : >"$1" ;;
    folder) mkdir "$1" ;;
    largest) text_of_size $LARGEST >"$1" ;;
    too-large) text_of_size $((LARGEST + 1)) >"$1" ;;
    deepest) text_of_depth $DEEPEST >"$1" ;;
    deepest-x) text_of_depth $DEEPEST '{"a","x"}' >"$1" ;;
    deepest-y) text_of_depth $DEEPEST '{"a","y"}' >"$1" ;;
    deepest-x-y) text_of_depth $DEEPEST '{"a","x","y"}' >"$1" ;;
    too-deep) text_of_depth $((DEEPEST + 1)) >"$1" ;;
    largest-schema) commented $LARGEST "$EVERY" >"$1" ;;
    largest-lens) commented $LARGEST "$EVERY_LENS" >"$1" ;;
    most-nodes) schema_of_nodes $MOST_NODES >"$1" ;;
    too-many-nodes) schema_of_nodes $((MOST_NODES + 1)) >"$1" ;;
    most-shapes) schema_of_shapes $MOST_SHAPES >"$1" ;;
    too-many-shapes) schema_of_shapes $((MOST_SHAPES + 1)) >"$1" ;;
    [1-9]*:*...*) filled "$2" >"$1" ;;
    *) printf '%s\n' "$2" >"$1" ;;
    esac
}

# Makes archive, A and B in a folder, and the schema that every tree is a member of, with lens files that show it all.
slots() {
    make "$1/${path[schema]}" "$EVERY"
    make "$1/${path[lensA]}" "$EVERY_LENS"
    make "$1/${path[lensB]}" "$EVERY_LENS"
    make "$1/${path[archive]}" "$2"
    make "$1/${path[A]}" "$3"
    make "$1/${path[B]}" "$4"
}

# files, archive A B before, archive A B afterwards
files() {
    before=("${@:1:3}")
    after=("${@:4:3}")
    slots . "${before[@]}"
    slots ../want "${after[@]}"
}

# Files of which A has changed, and all as A afterwards.
change() {
    files "$OLD" "$NEW" "$OLD" "$NEW" "$NEW" "$NEW"
}

# Files of which both sides have changed, so that a run changes all three.
both_change() {
    files "$OLD" "$NEW" "$OTHER" "$BOTH" "$BOTH" "$BOTH"
}

# Files of which A has changed, and which are to stay.
no_change() {
    files "$OLD" "$NEW" "$OLD" "$OLD" "$NEW" "$OLD"
}

# stopped_at SLOT: what must be there after a run that stopped at this one, in the order A, B, archive, or at none
stopped_at() {
    case $1 in
    A) slots ../want "${before[@]}" ;;
    B) slots ../want "${before[0]}" "${after[1]}" "${before[2]}" ;;
    archive) slots ../want "${before[0]}" "${after[@]:1}" ;;
    none) slots ../want "${after[@]}" ;;
    esac
}

# with SLOT TEXT: the file of this slot is what the text says, before and afterwards
with() {
    rm "$1" "../want/$1"
    make "$1" "$2"
    make "../want/$1" "$2"
}

# with_bytes SLOT TEXT: the same of a text with its escapes, as printf knows them
with_bytes() {
    printf %b "$2" >"$1"
    cp "$1" ../want
}

# Makes both lens files be those by which a file is read as it is, where that is a tree of the schema.
read_as_schema() {
    awk '
        /^harmony/ { $0 = "harmony lens 1" }
        sub(/^root +/, "format tree root=") { sub(/\r$/, "") }
        !/^#/
        END { print "main = id" }
    ' schema | tee lensA lensB ../want/lensA >../want/lensB
}

# Makes the schema be what $1 says, before and afterwards, with lens files.
with_schema() {
    with schema "$1"
    [[ ! -f schema ]] || read_as_schema
}

# Runs the program. A run that a signal ends has a status above 128, and one that doesn't end has 124.
run() {
    timeout 60 "${under[@]}" "$program" "$@" 2>../err
    status=$?
}

# as_planned SCHEMA LENS_A LENS_B ARCHIVE A B: of the same files harmony-changes, where it is there, refuses what a plan
# refuses, and tells the conflicts that a plan tells, with the same status.
as_planned() {
    local planned
    [[ -n $changes ]] || return
    run plan "$@" >../planned
    planned=$status
    program=$changes run "$@" >../told
    [[ ! -s ../err ]] || fault "harmony-changes: standard error: $(head -c 200 ../err)"
    [[ $status == "$planned" ]] || fault "harmony-changes: status $status, and a plan $planned"
    if [[ $planned -le 1 ]]; then
        sed -n '/^conflict /p; $p' ../told >../conflicts
    else
        cp ../told ../conflicts
    fi
    cmp -s ../planned ../conflicts ||
        fault "harmony-changes: $(head -c 200 ../told), and a plan $(head -c 200 ../planned)"
}

# Runs that are slowed, traced or limited are of the synchronisation alone.
sync() {
    local names=("${path[schema]}" "${path[lensA]}" "${path[lensB]}" "${path[archive]}" "${path[A]}" "${path[B]}")
    [[ -n ${under[*]} && ${under[0]} != setpriv ]] || as_planned "${names[@]}"
    run sync "${names[@]}" >../out
}

# Compares status, output, standard error and every file of the folder, so also that no other file is left in it, and
# that what is a symbolic link is one.
ends() {
    [[ $status == "$1" ]] || fault "status $status and not $1"
    printf '%s' "${2:+$2$'\n'}" | cmp -s - ../out || fault "printed $(head -c 200 ../out) and not $2"
    [[ ! -s ../err ]] || fault "standard error: $(head -c 200 ../err)"
    diff -rq --no-dereference ../want . >../diff 2>&1 || fault "files: $(head -c 400 ../diff | tr '\n' ';')"
}

has_mode() {
    [[ $(stat -c %a "$1") == "$2" ]] || fault "$1 has mode $(stat -c %a "$1") and not $2"
}

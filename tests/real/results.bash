# shellcheck shell=bash
# What comes of what three files hold, and which of them are refused.

# The schema of an address book: each person has a mail address, and maybe a phone.
readonly BOOK=$'harmony schema 1\nroot Book\nnode Book\n  other trimmed Person\n  shape + 0..
node Person\n  edge mail Value\n  edge phone Value\n  shape mail ? phone
node Value\n  other filled Empty\n  shape + 1..1'
# A schema by which two names can't stand together.
readonly EITHER=$'harmony schema 1\nroot R\nnode R\n  edge y Empty\n  edge z Empty\n  shape ? y\n  shape ? z'

# One of two of three names can't stand alone, nor all three together.
readonly PAIRS=$'harmony schema 1\nroot R\nnode R\n  edge x Empty\n  edge y Empty\n  edge z Empty
  shape ? x y\n  shape ? x z\n  shape ? y z'
# Exactly one name.
readonly ONE=$'harmony schema 1\nroot R\nnode R\n  other any Empty\n  shape + 1..1'

# A schema of entries that have one value each.
readonly VALUES=$'harmony schema 1\nroot R\nnode R\n  other any V\n  shape + 0..\nnode V\n  other any Empty\n  shape + 1..1'

# check TITLE, archive A B before, STATUS LINES, archive A B afterwards
check() {
    begin "$1"
    files "$2" "$3" "$4" "$7" "$8" "$9"
    sync
    ends "$5" "$6"
    finish
}

# check_under SCHEMA TITLE, archive A B before, STATUS LINES, archive A B afterwards
check_under() {
    begin "$2"
    files "$3" "$4" "$5" "$8" "$9" "${10}"
    with_schema "$1"
    sync
    ends "$6" "$7"
    finish
}

# A thousand entries of one value, which both sides have replaced by another: each is told, in the order of their paths.
many_conflicts() {
    local entry='"%04d":{"%s"}' marked='"%04d":!' line='conflict /"%04d" names {"new","other"} {"new","other"}\n'
    local old='' new='' other='' marks='' lines='' i
    for ((i = 1; i <= 1000; i++)); do
        # shellcheck disable=SC2059
        printf -v old "%s,$entry" "$old" $i old
        # shellcheck disable=SC2059
        printf -v new "%s,$entry" "$new" $i new
        # shellcheck disable=SC2059
        printf -v other "%s,$entry" "$other" $i other
        # shellcheck disable=SC2059
        printf -v marks "%s,$marked" "$marks" $i
        # shellcheck disable=SC2059
        printf -v lines "%s$line" "$lines" $i
    done
    begin 'a thousand conflicts'
    files "{${old:1}}" "{${new:1}}" "{${other:1}}" "{${marks:1}}" "{${new:1}}" "{${other:1}}"
    with_schema "$VALUES"
    sync
    ends 1 "${lines}conflicts 1000"
    finish
}

# The names of both sides, in files that are as large as may be.
largest_new_files() {
    begin 'the largest new files'
    slots . absent '8388609:{"..."}' '8388609:{"b..."}'
    cp schema lensA lensB ../want
    { head -c 8388607 A; printf ,; tail -c +2 B; } >../want/A
    cp ../want/A ../want/B
    cp ../want/A ../want/archive
    sync
    ends 0 agreed
    finish
}

# refuse TITLE, archive A B, STATUS LINE: each file stays
refuse() {
    check "$1" "$2" "$3" "$4" "$5" "$6" "$2" "$3" "$4"
}

# first_of_six SCHEMA LENS_A LENS_B ARCHIVE A B, STATUS LINE: several files are at fault, and one is told; each stays
first_of_six() {
    begin "the first of six: ${*:7}"
    files "$4" "$5" "$6" "$4" "$5" "$6"
    with schema "$1"
    with lensA "$2"
    with lensB "$3"
    sync
    ends "$7" "$8"
    finish
}

# member A: an address book, which comes to be in all three files, though the archive is no address book
member() {
    begin "an address book: $1"
    files "$OLD" "$1" "$1" "$1" "$1" "$1"
    with_schema "$BOOK"
    sync
    ends 0 agreed
    finish
}

# outside A B SLOT PATH: one of these is no address book, first at this path
outside() {
    begin "no address book: $1 $2"
    files "$OLD" "$1" "$2" "$OLD" "$1" "$2"
    with_schema "$BOOK"
    sync
    ends 3 "harmony: BadReplica $3 Outside $4"
    finish
}

check 'A has changed' "$OLD" "$NEW" "$OLD" 0 agreed "$NEW" "$NEW" "$NEW"
check 'B has changed' "$OLD" "$OLD" "$NEW" 0 agreed "$NEW" "$NEW" "$NEW"
check 'both have changed, to the same' "$OLD" "$NEW" "$NEW" 0 agreed "$NEW" "$NEW" "$NEW"
check 'nothing has changed' "$OLD" "$OLD" "$OLD" 0 agreed "$OLD" "$OLD" "$OLD"
check 'A has become the empty tree' "$OLD" '{}' "$OLD" 0 agreed '{}' '{}' '{}'
check 'both have changed, each its own' "$OLD" "$NEW" "$OTHER" 0 agreed "$BOTH" "$BOTH" "$BOTH"
check 'A has changed what B has deleted' "$OLD" "$KEPT" "$GONE" 1 \
    $'conflict /"old" lost /"old"/"new"\nconflicts 1' "$AT_OLD" "$KEPT" "$GONE"
check 'A has deleted what B has changed' '{"Bob":{"tel":{"1"}}}' '{}' '{"Bob":{"mail":{"b"},"tel":{"1"}}}' 1 \
    $'conflict /"Bob" lost /"Bob"/"mail"\nconflicts 1' '{"Bob":!}' '{}' '{"Bob":{"mail":{"b"},"tel":{"1"}}}'
check 'A has deleted what B has lessened' '{"Bob":{"tel":{"1"}}}' '{}' '{"Bob"}' 0 agreed '{}' '{}' '{}'
check 'two conflicts' '{"a","b"}' '{"a":{"1"}}' '{"b":{"2"}}' 1 \
    $'conflict /"a" lost /"a"/"1"\nconflict /"b" lost /"b"/"2"\nconflicts 2' \
    '{"a":!,"b":!}' '{"a":{"1"}}' '{"b":{"2"}}'
check 'beside a conflict' '{"a":{"1"},"b"}' '{"a":{"2"},"b"}' '{"b","c"}' 1 \
    $'conflict /"a" lost /"a"/"2"\nconflicts 1' \
    '{"a":!,"b","c"}' '{"a":{"2"},"b","c"}' '{"b","c"}'
check 'deleted, with a change at a mark below it' '{"d":{"a":!,"b"}}' '{}' '{"d":{"a":{"1"},"b"}}' 1 \
    $'conflict /"d" lost /"d"/"a"\nconflicts 1' '{"d":!}' '{}' '{"d":{"a":{"1"},"b"}}'
check 'deleted, and so is what was marked below it' '{"d":{"a":!,"b"}}' '{}' '{"d":{"b"}}' 0 agreed '{}' '{}' '{}'
check_under "$EITHER" "names that can't stand together" '{}' '{"y"}' '{"z"}' 1 \
    $'conflict / names {"y","z"} {"y","z"}\nconflicts 1' '!' '{"y"}' '{"z"}'
check_under "$PAIRS" 'two of three names' '{}' '{"x"}' '{"y","z"}' 1 \
    $'conflict / names {"x","y","z"} {"x","y","z"}\nconflicts 1' '!' '{"x"}' '{"y","z"}'
check_under "$PAIRS" 'three of three names' '{}' '{"x","y","z"}' '{"y","z"}' 3 'harmony: BadReplica A Outside /' \
    '{}' '{"x","y","z"}' '{"y","z"}'
check_under "$ONE" 'one name, which both have changed' '{"A"}' '{"B"}' '{"C"}' 1 \
    $'conflict / names {"B","C"} {"B","C"}\nconflicts 1' '!' '{"B"}' '{"C"}'
check_under "$ONE" 'one name, and nothing has changed since' '!' '{"B"}' '{"C"}' 1 $'conflict / earlier\nconflicts 1' \
    '!' '{"B"}' '{"C"}'
check_under "$ONE" 'one name, made alike by hand' '!' '{"B"}' '{"B"}' 0 agreed '{"B"}' '{"B"}' '{"B"}'
many_conflicts
check 'no archive, equal' absent "$NEW" "$NEW" 0 agreed "$NEW" "$NEW" "$NEW"
check 'no archive, different' absent "$NEW" "$OTHER" 0 agreed "$BOTH" "$BOTH" "$BOTH"
check 'empty archive, equal' empty "$NEW" "$NEW" 0 agreed "$NEW" "$NEW" "$NEW"
check 'empty archive, different' empty "$NEW" "$OTHER" 0 agreed "$BOTH" "$BOTH" "$BOTH"
check 'marked archive, equal' '!' "$NEW" "$NEW" 0 agreed "$NEW" "$NEW" "$NEW"
check 'marked archive, different' '!' "$NEW" "$OTHER" 1 $'conflict / earlier\nconflicts 1' '!' "$NEW" "$OTHER"
check 'a mark inside the archive, equal' '{"a":!}' '{"a":{"x"}}' '{"a":{"x"}}' 0 agreed \
    '{"a":{"x"}}' '{"a":{"x"}}' '{"a":{"x"}}'
check 'a mark inside the archive, different' '{"a":!}' '{"a":{"x"},"b"}' '{"a","c"}' 1 \
    $'conflict /"a" earlier\nconflicts 1' \
    '{"a":!,"b","c"}' '{"a":{"x"},"b","c"}' '{"a","b","c"}'
check 'a mark inside the archive, deleted' '{"a":!}' "$NEW" "$OTHER" 0 agreed "$BOTH" "$BOTH" "$BOTH"
check 'the largest file' "$OLD" largest "$OLD" 0 agreed largest largest largest
largest_new_files
check 'the deepest tree' "$OLD" deepest "$OLD" 0 agreed deepest deepest deepest
check 'names at the greatest depth' deepest deepest-x deepest-y 0 agreed deepest-x-y deepest-x-y deepest-x-y

refuse 'no archive, A and B' absent absent absent 3 'harmony: Missing A'
refuse 'archive not ascending' '{"b","a"}' "$OLD" "$OLD" 3 'harmony: BadArchive at 6'
refuse 'archive with braces around no name' '{"a":{}}' "$OLD" "$OLD" 3 'harmony: BadArchive at 6'
refuse 'A not ascending' "$OLD" '{"b","a"}' "$OLD" 3 'harmony: BadReplica A BadItem 6'
refuse 'B not ascending' "$OLD" "$OLD" '{"b","a"}' 3 'harmony: BadReplica B BadItem 6'
refuse 'A empty' "$OLD" empty "$OLD" 3 'harmony: BadReplica A BadItem 0'
refuse 'A a mark' "$OLD" '!' "$OLD" 3 'harmony: BadReplica A BadItem 0'
refuse 'archive too large' too-large "$OLD" "$OLD" 3 'harmony: TooLarge archive'
refuse 'A too large' "$OLD" too-large "$OLD" 3 'harmony: TooLarge A'
refuse 'B too large' "$OLD" "$OLD" too-large 3 'harmony: TooLarge B'
refuse 'A to grow too large' absent '8388610:{"..."}' '8388609:{"b..."}' 3 'harmony: Overgrown A 16777217'
refuse 'B to grow too large' '{"c":!}' '8388609:{"c":{"1"},"d..."}' '8388620:{"c":{"..."}}' 3 'harmony: Overgrown B 16777217'
refuse 'archive to grow too large' '{"c":!}' '16777215:{"c","d..."}' '16777211:{"d..."}' 3 'harmony: Overgrown archive 16777217'
refuse 'archive too deep' too-deep "$OLD" "$OLD" 3 'harmony: BadArchive deep'
refuse 'A too deep' "$OLD" too-deep "$OLD" 3 'harmony: BadReplica A TooDeep 1001'
refuse 'B too deep' "$OLD" "$OLD" too-deep 3 'harmony: BadReplica B TooDeep 1001'

# All six are read and measured, in their order, before the first is judged as a text.
refuse 'no A, and a folder as B' "$OLD" absent folder 3 'harmony: Missing A'
refuse 'a folder as A, and no B' "$OLD" folder absent 4 'harmony: ReadFault A'
refuse 'bad archive, and no B' '{"b","a"}' "$OLD" absent 3 'harmony: Missing B'
refuse 'bad archive, and A too large' '{"b","a"}' too-large "$OLD" 3 'harmony: TooLarge A'
refuse 'bad archive, and bad A' '{"b","a"}' '{"b","a"}' "$OLD" 3 'harmony: BadArchive at 6'
first_of_six absent folder absent folder absent absent 3 'harmony: Missing schema'
first_of_six folder absent absent absent absent absent 4 'harmony: ReadFault schema'
first_of_six "$OLD" absent folder too-large absent absent 3 'harmony: Missing lensA'
first_of_six "$OLD" too-large absent too-large absent absent 3 'harmony: TooLarge lensA'
first_of_six "$OLD" "$OLD" folder folder absent absent 4 'harmony: ReadFault lensB'
first_of_six "$OLD" "$OLD" "$OLD" too-large absent folder 3 'harmony: TooLarge archive'
first_of_six "$OLD" "$OLD" "$OLD" '{"b","a"}' "$OLD" absent 3 'harmony: Missing B'
first_of_six "$OLD" "$OLD" "$OLD" '{"b","a"}' '{"b","a"}' "$OLD" 3 'harmony: BadSchema 1'
first_of_six "$EVERY" "$OLD" "$OLD" '{"b","a"}' '{"b","a"}' "$OLD" 3 'harmony: BadLens lensA 1'
first_of_six "$EVERY" "$EVERY_LENS" "$OLD" '{"b","a"}' '{"b","a"}' "$OLD" 3 'harmony: BadLens lensB 1'
first_of_six "$BOOK" "$EVERY_LENS" "$OLD" '{"b","a"}' '{"b","a"}' "$OLD" 3 'harmony: WrongView lensA'
first_of_six "$EVERY" "$EVERY_LENS" "$EVERY_LENS" '{"b","a"}' '{"b","a"}' "$OLD" 3 'harmony: BadArchive at 6'

member '{}'
member '{"Ann":{"mail":{"ann@example.org"},"phone":{"+44 20"}},"Bob":{"mail":{"b"}}}'
# A is judged whole before B.
outside '{"Ann":{"phone":{"+44 20"}}}' '{"b","a"}' A '/"Ann"'
outside '{}' '{"Ann":{"phone":{"+44 20"}}}' B '/"Ann"'
outside '{"Ann":{"mail":{"a"},"web":{"w"}}}' '{}' A '/"Ann"'
outside '{"Ann":{"mail":{"a","b"}}}' '{}' A '/"Ann"/"mail"'
outside '{"Ann":{"mail":{"a":{"b"}}}}' '{}' A '/"Ann"/"mail"/"a"'
outside '{"Ann":{"mail":{" "}}}' '{}' A '/"Ann"/"mail"'
outside '{" Ann":{"mail":{"a"}}}' '{}' A '/'
outside '{"Ann":{"mail":{"a"}},"Bob","Cid"}' '{}' A '/"Bob"'
outside '{"\"Ann\" \\":{"mail"}}' '{"Bob"}' A '/"\"Ann\" \\"/"mail"'

# shellcheck shell=bash
# Lens files: which are refused, of which side and in which order, and what trees become that are read through lenses.

# A node of one text, which may be any, and one of a text that isn't of spaces alone.
readonly VALUE=$'node V\n  other any Empty\n  shape + 1..1' FILLED=$'node F\n  other filled Empty\n  shape + 1..1'
# Nodes of which the first must have the name m, and the root lets in names with such a node below.
readonly ONE_M=$'node R\n  edge m Empty\n  shape m' SOME_M=$'node R\n  other any M\n  shape + 0..\nnode M\n  edge m Empty\n  shape m'

# tree_lens NODES MAIN: the lens file by which trees, whose root is the node R, are read through a lens
tree_lens() {
    printf 'harmony lens 1\nformat tree root=R\n%s\nmain = %s' "$1" "$2"
}

# fault_of SLOT FAULT: the line that tells it, with the slot behind the first word
fault_of() {
    local word=${2%% *}
    printf 'harmony: %s %s%s' "$word" "$1" "${2#"$word"}"
}

# refuse_lens FAULT TEXT: a lens file that is refused, on either side, with its escapes as printf knows them
refuse_lens() {
    local slot
    for slot in lensA lensB; do
        begin "$slot: $1: $2"
        no_change
        with_bytes $slot "$2"
        sync
        ends 3 "$(fault_of $slot "$1")"
        finish
    done
}

# refuse_main FAULT MAIN [NODES]: the same of a lens over these trees, or else over every tree
refuse_main() {
    refuse_lens "$1" "$(tree_lens "${3-$EVERY_NODE}" "$2")\n"
}

# a_lens TEXT: a lens file that shows every tree as it is, with its escapes as printf knows them
a_lens() {
    begin "a lens file: ${1::200}"
    change
    with_bytes lensA "$1"
    with_bytes lensB "$1"
    sync
    ends 0 agreed
    finish
}

# large_lens TITLE LINE TEXT MORE: a lens file that has as much of something as may be, and one with more, in this line
large_lens() {
    begin "$1"
    change
    with lensA "$3"
    with lensB "$3"
    sync
    ends 0 agreed
    finish

    local slot
    for slot in lensA lensB; do
        begin "$1, and one more as $slot"
        no_change
        with $slot "$4"
        sync
        ends 3 "harmony: BadLens $slot $2"
        finish
    done
}

# repeated NUMBER FORMAT: so many texts of this form, of the numbers from 1
repeated() {
    # shellcheck disable=SC2046,SC2059 # The form is given, and each number is a word.
    printf "$2" $(seq 1 "$1")
}

# The file of a slot of too many bytes, or as large as may be.
sizes() {
    local slot
    for slot in lensA lensB; do
        begin "$slot too large"
        no_change
        with $slot too-large
        sync
        ends 3 "harmony: TooLarge $slot"
        finish
    done
    begin 'the largest lens files'
    change
    with lensA largest-lens
    with lensB largest-lens
    sync
    ends 0 agreed
    finish
}

# first_lens FAULT LENS_A LENS_B: both lens files are at fault, and the archive too; that of A is told
first_lens() {
    begin "the first of two lens files: $1"
    no_change
    with lensA "$2"
    with lensB "$3"
    with archive '{"b","a"}'
    sync
    ends 3 "$(fault_of lensA "$1")"
    finish
}

# wrong_view MAIN NODES: a lens file that shows trees of another schema than that of every tree
wrong_view() {
    refuse_main WrongView "$@"
}

# through MAIN NODES SCHEMA, A before, its view, another view, A afterwards: A is shown by a lens, and B is as the view.
# From B the other view reaches A.
through() {
    begin "through a lens: $1: $4"
    files "$5" "$4" "$6" "$6" "$7" "$6"
    with_schema "$3"
    with lensA "$(tree_lens "$2" "$1")"
    sync
    ends 0 agreed
    finish
}

# both_through LENS_A LENS_B, archive A B before, STATUS LINES, archive A B afterwards: two lens files over every tree
both_through() {
    begin "through two lens files: ${4::100} and $5"
    files "$3" "$4" "$5" "$8" "$9" "${10}"
    with lensA "$1"
    with lensB "$2"
    sync
    ends "$6" "$7"
    finish
}

# deepest_through MAIN: the deepest tree, through a lens that shows every tree as it is
deepest_through() {
    begin "the deepest tree through a lens: ${1::40}"
    files "$OLD" deepest "$OLD" deepest deepest deepest
    with lensA "$(tree_lens "$EVERY_NODE$self" "$1")"
    with lensB "$(tree_lens "$EVERY_NODE$self" "$1")"
    sync
    ends 0 agreed
    finish
}

# deep_archive ARCHIVE A B: lenses show trees one name deeper than those in the files, and so would an archive be
deep_archive() {
    begin "an archive that would be too deep: ${2::40} and $3"
    files "$@" "$@"
    with_schema "$BELOW_X"
    with lensA "$(tree_lens "$EVERY_NODE" 'plunge(x)')"
    with lensB "$(tree_lens "$EVERY_NODE" 'plunge(x)')"
    sync
    ends 3 'harmony: Unwritable archive 1001'
    finish
}

# --- Which lens files are refused ---

refuse_lens 'BadLens 1' ''
refuse_lens 'BadLens 1' "$EVERY\n"
refuse_lens 'BadLens 1' 'harmony lens 2\nformat tree root=R\n'
refuse_lens 'BadLens 2' 'harmony lens 1\n'
refuse_lens 'BadLens 2' 'harmony lens 1\nform csv\nmain = id\n'
refuse_lens 'BadLens 2' 'harmony lens 1\nharmony lens 1\nformat tree root=R\n'
refuse_lens 'BadLens 2' 'harmony lens 1\nmain = id\n'
refuse_lens 'BadLens 2' 'harmony lens 1\nformat tree root = R\nnode R\n  shape\nmain = id\n'
refuse_lens 'BadLens 2' 'harmony lens 1\nformat tree root\nnode R\n  shape\nmain = id\n'
refuse_lens 'BadLens 2' 'harmony lens 1\nformat tree root=R,\nnode R\n  shape\nmain = id\n'
refuse_lens 'BadLens 3' 'harmony lens 1\nformat tree root=R\nroot R\nnode R\n  shape\nmain = id\n'
refuse_lens 'BadLens 3' 'harmony lens 1\nformat tree root=R\nnode R\nmain = id\n'
refuse_lens 'BadLens 4' 'harmony lens 1\nformat tree root=R\nnode R\n  other any Q\n  shape + 0..\nmain = id\n'
refuse_lens 'BadLens 5' "harmony lens 1\nformat tree root=R\nnode R\n  shape\n"
refuse_lens 'BadLens 5' 'harmony lens 1\nformat tree root=R\nnode R\n  shape\nmain = \xff\n'
refuse_lens 'BadLens 6' 'harmony lens 1\nformat tree root=R\nnode R\n  shape\nmain = id\nnode S\n  shape\n'
refuse_lens 'BadLens 6' 'harmony lens 1\nformat tree root=R\nnode R\n  shape\nmain = id\nmain = id\n'
refuse_lens 'BadLens 6' 'harmony lens 1\nformat tree root=R\nnode R\n  shape\nlens l R R = id\nlens l R R = id\nmain = id\n'
refuse_lens 'BadLens 6' 'harmony lens 1\nformat tree root=R\nnode R\n  shape\nlens l R R = id\nnode S\n  shape\nmain = id\n'
refuse_lens 'BadLens 5' 'harmony lens 1\nformat tree root=R\nnode R\n  shape\nlens l R S = id\nmain = id\n'
refuse_lens 'BadLens 5' 'harmony lens 1\nformat tree root=R\nnode R\n  shape\nlens l R = id\nmain = id\n'
refuse_lens 'BadLens 8' '# a lens file\n\nharmony lens 1\n# \xff\nformat tree root=R\nnode R\n  shape\nmain = call(l)\n'
for main in '' 'ID' 'id id' 'id;' ';id' '(id' 'id)' '()' 'hoist()' 'hoist(a,b)' 'hoist(a b)' 'map()' 'const({})' 'const({},{ })' \
    'const({"b","a"},{})' 'const({},{"a":!})' 'xfork({a},id,id)' 'xfork({a,b},{},id,id)' 'wmap()' 'wmap(a=id,a=id)' 'wmap(a)' \
    'text("trim")' 'call(nobody)' 'copy(a)' 'ccond(a,id)' 'acond(a,b,id)' 'rename(a)' 'id # as it is'; do
    refuse_main 'BadLens 6' "$main"
done
refuse_lens 'BadLens 6' "harmony lens 1\nformat tree root=R\n$EVERY_NODE\nmain=id\n"

refuse_lens 'UnknownFormat "abc"' 'harmony lens 1\nformat abc\nmain = id\n'
refuse_lens 'UnknownFormat "Tree"' 'harmony lens 1\nformat Tree root=R\nnode R\n  shape\nmain = id\n'

refuse_lens 'BadOption "root"' 'harmony lens 1\nformat tree\nnode R\n  shape\nmain = id\n'
refuse_lens 'BadOption "root"' 'harmony lens 1\nformat tree root=S\nnode R\n  shape\nmain = id\n'
refuse_lens 'BadOption "root"' 'harmony lens 1\nformat tree root=Empty\nnode R\n  shape\nmain = id\n'
refuse_lens 'BadOption "root"' 'harmony lens 1\nformat tree root=R,S\nnode R\n  shape\nnode S\n  shape\nmain = id\n'
refuse_lens 'BadOption "root"' 'harmony lens 1\nformat tree root=R root=R\nnode R\n  shape\nmain = id\n'
refuse_lens 'BadOption "key"' 'harmony lens 1\nformat tree key=R\nnode R\n  shape\nmain = id\n'
refuse_lens 'BadOption "show"' 'harmony lens 1\nformat tree root=R show=a many=b\nnode R\n  shape\nmain = id\n'

refuse_main 'UnknownLens "nosuch"' 'map(text(nosuch))'
refuse_main 'UnknownLens "Trim"' 'text(trim);text(Trim);text(nosuch)'
refuse_lens 'UnknownLens "first"' \
    "harmony lens 1\nformat tree root=R\n$EVERY_NODE\nlens l R R = text(first)\nmain = text(second)\n"

refuse_lens 'Unguarded "Loop"' \
    "harmony lens 1\nformat tree root=R\n$EVERY_NODE\nlens Loop R R = call(Loop)\nmain = call(Loop)\n"
refuse_lens 'Unguarded "two"' "harmony lens 1\nformat tree root=R\n$EVERY_NODE
lens one R R = call(two)\nlens two R R = map(id);call(three)\nlens three R R = map(call(two))\nmain = id\n"

# One lens of each kind over trees for which it isn't, told by the number of its rule.
while read -r rule main; do
    refuse_main "Mistyped 1 1 $rule" "$main"
done <<'END'
4 hoist(a)
6 xfork({a},{b},id,id)
8 wmap(a=id)
9 list(id)
10 copy(a,b)
11 merge(a,b)
12 ccond(a,id,id)
13 acond(a,b,id,id)
14 text(trim)
END
refuse_main 'Mistyped 1 1 3' 'const({},{"n"})' "$ONE_M"
refuse_main 'Mistyped 1 3 7' 'copy(m,n);map(id)' "$ONE_M"
refuse_main 'Mistyped 1 2 4' 'map(hoist(a))'
refuse_main 'Mistyped 1 5 4' 'id;id;hoist(a)'
refuse_lens 'Mistyped 1 1 15' "harmony lens 1\nformat tree root=R\n$EVERY_NODE\nlens l R Empty = id\nmain = id\n"
refuse_lens 'Mistyped 2 2 15' \
    "harmony lens 1\nformat tree root=R\n$EVERY_NODE\nlens l Empty Empty = id\nmain = map(call(l))\n"
refuse_main 'TwinLeft 1 1' 'copy(m,n)' "$ONE_M"
refuse_main 'TwinLeft 1 4' 'id;map(copy(m,n))' "$SOME_M"

wrong_view 'plunge(x)' "$EVERY_NODE"
wrong_view 'const({},{})' "$EVERY_NODE"
wrong_view id $'node R\n  other clean R\n  shape + 0..'
wrong_view id $'node R\n  other any R\n  shape + 1..\n  shape'
wrong_view id $'node R\n  other any S\n  shape + 0..\nnode S\n  other any R\n  shape + 0..1000'

# Of several faults of one lens file the first in this order is told.
refuse_lens 'BadLens 4' 'harmony lens 1\nformat abc\nmain = id\nmain = id\n'
refuse_lens 'UnknownFormat "abc"' 'harmony lens 1\nformat abc root=R\nmain = text(nosuch)\n'
refuse_lens 'BadOption "root"' 'harmony lens 1\nformat tree\nmain = text(nosuch)\n'
refuse_lens 'UnknownLens "nosuch"' \
    "harmony lens 1\nformat tree root=R\n$EVERY_NODE\nlens l R R = call(l)\nmain = hoist(a);text(nosuch)\n"
refuse_lens 'Unguarded "l"' "harmony lens 1\nformat tree root=R\n$EVERY_NODE\nlens l R R = call(l)\nmain = hoist(a)\n"
refuse_main 'Mistyped 1 3 4' 'copy(m,n);hoist(m)' "$ONE_M"

# The lens file of A is told before that of B, whatever is the matter, and both before the archive.
first_lens WrongView "$(tree_lens "$EVERY_NODE" 'plunge(x)')" 'no lens file'
first_lens 'Mistyped 1 1 4' "$(tree_lens "$EVERY_NODE" 'hoist(a)')" 'no lens file'
first_lens 'BadLens 1' 'no lens file' "$(tree_lens "$EVERY_NODE" 'plunge(x)')"

sizes

# --- Which are read ---

a_lens "$EVERY_LENS"
a_lens "${EVERY_LENS//$'\n'/'\r\n'}\r\n"
a_lens "\n# any tree\n   \nharmony  lens 1\n#\xff\nformat   tree  root=\"R\"\n$EVERY_NODE\nmain  =  id\n"
a_lens "harmony lens 1\nformat tree root=R\nnode Unused\n  shape\n$EVERY_NODE\nmain = ( ( id ) ; id ) ;(id;id)\n"
a_lens "harmony lens 1\nformat tree root=R\n$EVERY_NODE\nlens * R R = map( call( * ) )\nmain = call( * )\n"
a_lens "harmony lens 1\nformat tree root=R\nnode R\n  other any S\n  shape + 0..\nnode S\n  other any R\n  shape + 0..\nmain = id\n"
a_lens "harmony lens 1\nformat tree root=R\n$EVERY_NODE\nmain = plunge(x);rename ( \"x\" , \"y z\" );add(\"\",{\"t\"});prune(\"\",{\"t\"});hoist(\"y z\")\n"
a_lens "harmony lens 1\nformat tree root=R\n$EVERY_NODE\nlens l R R = id\nlens m Empty Empty = const({},{})\nmain = call(l)\n"

before_main=$'harmony lens 1\nformat tree root=R\n'$EVERY_NODE$'\n'
ids=$(repeated 1000 'id;%.0s')
large_lens 'a lens file of 1,000 nodes' 2004 "$before_main$(repeated 999 'node N%d\n  shape\n')"$'\nmain = id' \
    "$before_main$(repeated 1000 'node N%d\n  shape\n')"$'\nmain = id'
large_lens 'a lens file of 200 definitions' 206 "$before_main$(repeated 200 'lens l%d R R = id\n')"$'\nmain = call(l200)' \
    "$before_main$(repeated 201 'lens l%d R R = id\n')"$'\nmain = call(l200)'
large_lens 'a lens of 2,000 lenses' 6 "${before_main}main = map(${ids%;})" "${before_main}main = map(${ids}id)"
large_lens 'a lens in 200 parentheses' 6 "${before_main}main = $(repeated 200 '(%.0s')id$(repeated 200 ')%.0s')" \
    "${before_main}main = $(repeated 201 '(%.0s')id$(repeated 201 ')%.0s')"

# --- What trees become that are read through them ---

readonly SOME=$'harmony schema 1\nroot R\nnode R\n  other any V\n  shape + 0..\n'$VALUE
readonly BELOW_X=$'harmony schema 1\nroot P\nnode P\n  edge x R\n  shape x\n'$EVERY_NODE
readonly ONLY_A=$'harmony schema 1\nroot R\nnode R\n  edge a V\n  shape a\n'$VALUE
readonly MAY_B=$'harmony schema 1\nroot R\nnode R\n  edge b V\n  shape ? b\n'$VALUE
readonly A_AND_H=$'node R\n  edge a S\n  edge h S\n  shape a ? h\nnode S\n  other any S\n  shape + 0..'
readonly MAY_A=$'node R\n  edge a V\n  shape ? a\n'$VALUE

through 'hoist(a)' $'node R\n  edge a S\n  shape a\nnode S\n  other any S\n  shape + 0..' "$EVERY" \
    '{"a":{"1"}}' '{"1"}' '{"2"}' '{"a":{"2"}}'
through 'plunge(x)' "$EVERY_NODE" "$BELOW_X" \
    '{"1"}' '{"x":{"1"}}' '{"x":{"2"}}' '{"2"}'
through 'focus(a,{})' "$A_AND_H" "$EVERY" '{"a":{"1"},"h":{"2"}}' '{"1"}' '{"3"}' '{"a":{"3"},"h":{"2"}}'
through 'prune(b,{"z"})' $'node R\n  edge a V\n  edge b V\n  shape a ? b\n'"$VALUE" "$ONLY_A" \
    '{"a":{"1"},"b":{"2"}}' '{"a":{"1"}}' '{"a":{"3"}}' '{"a":{"3"},"b":{"2"}}'
through 'rename(b,a)' $'node R\n  edge b V\n  shape b\n'"$VALUE" "$ONLY_A" \
    '{"b":{"1"}}' '{"a":{"1"}}' '{"a":{"2"}}' '{"b":{"2"}}'
through 'add(b,{"2"});prune(b,{"2"})' $'node R\n  edge a V\n  shape a\n'"$VALUE" "$ONLY_A" \
    '{"a":{"1"}}' '{"a":{"1"}}' '{"a":{"3"}}' '{"a":{"3"}}'
through 'map(hoist(n))' $'node R\n  other any N\n  shape + 0..\nnode N\n  edge n V\n  shape n\n'"$VALUE" "$SOME" \
    '{"x":{"n":{"1"}}}' '{"x":{"1"}}' '{"x":{"2"},"y":{"3"}}' '{"x":{"n":{"2"}},"y":{"n":{"3"}}}'
through 'wmap(b=hoist(n))' $'node R\n  edge b N\n  shape ? b\nnode N\n  edge n V\n  shape n\n'"$VALUE" "$MAY_B" \
    '{}' '{}' '{"b":{"1"}}' '{"b":{"n":{"1"}}}'
through 'list(hoist(n))' $'node R\n  edge *h N\n  edge *t R\n  shape\n  shape *h *t\nnode N\n  edge n V\n  shape n\n'"$VALUE" \
    $'harmony schema 1\nroot R\nnode R\n  edge *h V\n  edge *t R\n  shape\n  shape *h *t\n'"$VALUE" \
    '{"*h":{"n":{"1"}},"*t":{"*h":{"n":{"2"}},"*t"}}' '{"*h":{"1"},"*t":{"*h":{"2"},"*t"}}' \
    '{"*h":{"3"},"*t"}' '{"*h":{"n":{"3"}},"*t"}'
for pair in '{"1"},{"1"},{"2"}' '{"1"},{"3"},{"3"}'; do
    IFS=, read -r one other then <<<"$pair"
    through 'merge(a,b)' $'node R\n  edge a V\n  edge b V\n  shape a b\n'"$VALUE" "$ONLY_A" \
        "{\"a\":$one,\"b\":$other}" "{\"a\":$one}" '{"a":{"2"}}' "{\"a\":{\"2\"},\"b\":$then}"
done
through 'copy(a,c);merge(a,c)' $'node R\n  edge a V\n  shape a\n'"$VALUE" "$ONLY_A" \
    '{"a":{"1"}}' '{"a":{"1"}}' '{"a":{"2"}}' '{"a":{"2"}}'
for tree in '{"a"}' '{"b"}'; do
    through 'ccond(a,const({},{"a"}),const({},{"b"}))' $'node R\n  edge a Empty\n  edge b Empty\n  shape a\n  shape b' \
        $'harmony schema 1\nroot R\nnode R\n  shape' "$tree" '{}' '{}' "$tree"
done
through 'acond(a,b,rename(a,b),id)' "$MAY_A" "$MAY_B" '{"a":{"1"}}' '{"b":{"1"}}' '{"b":{"2"}}' '{"a":{"2"}}'
through 'acond(a,b,rename(a,b),id)' "$MAY_A" "$MAY_B" '{"a":{"1"}}' '{"b":{"1"}}' '{}' '{}'
through 'acond(a,b,rename(a,b),id)' "$MAY_A" "$MAY_B" '{}' '{}' '{"b":{"1"}}' '{"a":{"1"}}'

readonly TEXTS=$'node R\n  other any F\n  shape + 0..\n'$FILLED
readonly OF_TEXTS=$'harmony schema 1\nroot R\n'$TEXTS
through 'map(text(trim))' "$TEXTS" "${OF_TEXTS/filled/trimmed}" '{"x":{" 1 "},"y":{" 2"}}' '{"x":{"1"},"y":{"2"}}' \
    '{"x":{"3"},"y":{"2"},"z":{"4"}}' '{"x":{"3"},"y":{" 2"},"z":{"4"}}'
through 'map(text(date))' "$TEXTS" "$OF_TEXTS" '{"x":{"19900203"},"y":{"19900231"}}' '{"x":{"1990-02-03"},"y":{"19900231"}}' \
    '{"x":{"2000-02-29"},"y":{"1900-02-29"}}' '{"x":{"20000229"},"y":{"1900-02-29"}}'
through 'map(text(email))' "$TEXTS" "${OF_TEXTS/filled/folded}" '{"x":{" Ann@A.org "},"y":{"Straße"}}' \
    '{"x":{"ann@a.org"},"y":{"strasse"}}' '{"x":{"ann@b.org"},"y":{"strasse"}}' '{"x":{"ann@b.org"},"y":{"Straße"}}'
through 'map(text(yesno))' "$TEXTS" "$OF_TEXTS" '{"x":{"Y"},"y":{"N"},"z":{"y"}}' '{"x":{"yes"},"y":{"no"},"z":{"y"}}' \
    '{"x":{"no"},"y":{"no"},"z":{"maybe"}}' '{"x":{"N"},"y":{"N"},"z":{"maybe"}}'

# A definition that calls itself: each folder has the folders in it, and a note that isn't shown.
through 'call(bare)' $'node R\n  edge note V\n  edge in Rs\n  shape in ? note\nnode Rs\n  other any R\n  shape + 0..
node B\n  edge in Bs\n  shape in\nnode Bs\n  other any B\n  shape + 0..\n'"$VALUE"'
lens bare R B = xfork({note},{},const({},{}),wmap(in=map(call(bare))))' \
    $'harmony schema 1\nroot R\nnode R\n  edge in Rs\n  shape in\nnode Rs\n  other any R\n  shape + 0..' \
    '{"in":{"x":{"in","note":{"1"}}},"note":{"2"}}' '{"in":{"x":{"in"}}}' '{"in":{"x":{"in":{"y":{"in"}}},"z":{"in"}}}' \
    '{"in":{"x":{"in":{"y":{"in"}},"note":{"1"}},"z":{"in"}},"note":{"2"}}'

# Lenses that go down as far as there is anything.
self=$'\nlens self R R = map(call(self))'
deepest_through 'call(self)'
deepest_through "$(repeated 199 'map(%.0s')call(self)$(repeated 199 ')%.0s')"
deepest_through "$(repeated 199 'xfork({},{},id,%.0s')call(self)$(repeated 199 ')%.0s')"

# What each side hides stays where both change, and where they are in conflict.
focus_a=$(tree_lens "$A_AND_H" 'focus(a,{})')
under_x=$(tree_lens $'node R\n  edge x S\n  shape x\nnode S\n  other any S\n  shape + 0..' 'hoist(x)')
both_through "$focus_a" "$under_x" '{"old"}' '{"a":{"new","old"},"h":{"1"}}' '{"x":{"old","other"}}' 0 agreed \
    '{"new","old","other"}' '{"a":{"new","old","other"},"h":{"1"}}' '{"x":{"new","old","other"}}'
both_through "$focus_a" "$under_x" '{"d":{"1"},"old"}' '{"a":{"d":{"2"},"new","old"},"h":{"1"}}' '{"x":{"old"}}' 1 \
    $'conflict /"d" lost /"d"/"2"\nconflicts 1' \
    '{"d":!,"new","old"}' '{"a":{"d":{"2"},"new","old"},"h":{"1"}}' '{"x":{"new","old"}}'
both_through "$focus_a" "$under_x" absent '{"a","h":{"1"}}' '{"x"}' 0 agreed '{}' '{"a","h":{"1"}}' '{"x"}'

# A file is judged by the nodes of its own lens file, of which the view is no part, and A before B.
both_through "$focus_a" "$under_x" '{}' '{"h":{"1"}}' '{"y"}' 3 'harmony: BadReplica A Outside /' '{}' '{"h":{"1"}}' '{"y"}'
both_through "$focus_a" "$under_x" '{}' '{"a"}' '{"x","y"}' 3 'harmony: BadReplica B Outside /' '{}' '{"a"}' '{"x","y"}'

# What is put may be deeper or longer than what is shown, and what is shown deeper than what is in the files. How deep
# the new files would be is told before how large they would be.
deepest_in_x=$(text_of_depth 998)
both_through "$focus_a" "$under_x" '{}' "{\"a\":{\"h\":$deepest_in_x}}" '{"x"}' 0 agreed \
    "{\"h\":$deepest_in_x}" "{\"a\":{\"h\":$deepest_in_x}}" "{\"x\":{\"h\":$deepest_in_x}}"
both_through "$EVERY_LENS" "$under_x" '{}' deepest '{"x"}' 3 'harmony: Unwritable B 1001' '{}' deepest '{"x"}'
both_through "$under_x" "$EVERY_LENS" '{}' '{"x"}' deepest 3 'harmony: Unwritable A 1001' '{}' '{"x"}' deepest
large_and_deep="16777216:{\"...\",\"d\":$(text_of_depth 999)}"
both_through "$EVERY_LENS" "$under_x" '{}' "$large_and_deep" '{"x":{"new"}}' 3 'harmony: Unwritable B 1001' \
    '{}' "$large_and_deep" '{"x":{"new"}}'
large='16777216:{"..."}'
both_through "$EVERY_LENS" "$under_x" '{}' "$large" '{"x":{"new"}}' 3 'harmony: Overgrown A 16777222' '{}' "$large" '{"x":{"new"}}'
large='16777216:{"a":{"1"},"h":{"..."}}'
both_through "$focus_a" "$under_x" '{"1"}' "$large" '{"x":{"1"}}' 0 agreed '{"1"}' "$large" '{"x":{"1"}}'
both_through "$focus_a" "$under_x" '{"1"}' "$large" '{"x":{"22"}}' 3 'harmony: Overgrown A 16777217' '{"1"}' "$large" '{"x":{"22"}}'
deep_archive absent deepest deepest
deep_archive '{"x"}' deepest-x deepest-y
deep_archive absent "$large_and_deep" '{"new"}'

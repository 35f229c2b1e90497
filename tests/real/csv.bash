# shellcheck shell=bash
# Files of comma-separated values: address books in tables whose columns are unlike.

# book_of LINES: the schema of address books whose cards are so
book_of() {
    printf '%s\n' 'harmony schema 1' 'root Book' 'node Book' '  other filled Cards' '  shape + 0..' \
        'node Cards' '  edge *h Card' '  edge *t More' '  shape *h *t' \
        'node More' '  edge *h Card' '  edge *t More' '  shape' '  shape *h *t' \
        'node Card' "$1" 'node Day' '  other filled Empty' '  shape + 1..1' 'node Texts' '  other filled Empty' '  shape + 1..'
}

CARDS=$(book_of $'  edge BDAY Day\n  edge EMAIL Texts\n  edge TEL Texts\n  shape ? BDAY EMAIL TEL')
readonly CARDS

# renamed TITLE NAME: the lens of a column that may be there
renamed() {
    printf 'acond(%s,%s,rename(%s,%s),id)' "$1" "$2" "$1" "$2"
}

# table_lens OPTIONS MAIN: the lens file of a table
table_lens() {
    printf 'harmony lens 1\nformat csv %s\nmain = %s' "$1" "$2"
}

# One table has other titles than the schema, and dates with hyphens; the other has the schema's.
PLAIN_TITLES=$(table_lens 'key=Name show=Birthday many=Phone,Email' \
    "map(list($(renamed Birthday BDAY);$(renamed Email EMAIL);$(renamed Phone TEL);wmap(BDAY=text(date))))")
CARD_TITLES=$(table_lens 'key=Who show=BDAY many=TEL,EMAIL' id)
readonly PLAIN_TITLES CARD_TITLES
readonly HEAD_A=$'Name,Phone,Email,Birthday\n' HEAD_B=$'TEL,BDAY,Who,Notes,EMAIL\n'

# The schema and the lens files of the checks that follow.
book_schema=$CARDS book_lens_a=$PLAIN_TITLES book_lens_b=$CARD_TITLES

# tables FOLDER ARCHIVE A B: the six files, and the replicas byte for byte
tables() {
    make "$1/schema" "$book_schema"
    make "$1/lensA" "$book_lens_a"
    make "$1/lensB" "$book_lens_b"
    make "$1/archive" "$2"
    printf %s "$3" >"$1/A"
    printf %s "$4" >"$1/B"
}

# books TITLE, archive A B before, STATUS LINES, archive A B afterwards
books() {
    begin "tables: $1"
    tables . "${@:2:3}"
    tables ../want "${@:7:3}"
    sync
    ends "$5" "$6"
    finish
}

# stay TITLE, archive A B before, STATUS LINES, archive afterwards: both tables are left alone
stay() {
    begin "tables stay: $1"
    tables . "${@:2:3}"
    tables ../want "$7" "$3" "$4"
    local old
    old=$(state_of A B)
    sync
    [[ $(state_of A B) == "$old" ]] || fault 'a file was touched'
    ends "$5" "$6"
    finish
}

# refuse_table FAULT TEXT: a table that is refused, on either side
refuse_table() {
    local slot
    for slot in A B; do
        begin "no table: $slot: $1: ${2::200}"
        book_lens_b=$PLAIN_TITLES tables . absent "$HEAD_A" "$HEAD_A"
        printf %s "$2" >$slot
        cp -- * ../want
        sync
        ends 3 "harmony: BadReplica $slot $1"
        finish
    done
}

# bad_option KEY OPTIONS: the options of a table of which this one isn't as it may be
bad_option() {
    local slot
    for slot in lensA lensB; do
        begin "$slot: options $2"
        tables . absent "$HEAD_A" "$HEAD_B"
        make $slot "harmony lens 1"$'\n'"format csv${2:+ $2}"$'\n'"main = id"
        cp -- * ../want
        sync
        ends 3 "harmony: BadOption $slot \"$1\""
        finish
    done
}

# a_table TITLE TEXT, B afterwards: A is read as it is, and what it has reaches an empty table
a_table() {
    begin "a table: $1"
    book_lens_b=$PLAIN_TITLES tables . absent "$2" "$HEAD_A"
    cp -- * ../want
    printf %s "$3" >../want/B
    sync
    rm archive
    ends 0 agreed
    finish
}

# card NAME CARD: an entry of the archive that has this one card
card() {
    printf '"%s":{"*h"%s,"*t"}' "$1" "${2:+:{$2\}}"
}

# --- What tables become ---

ann='"BDAY":{"19900203"},"EMAIL":{"ann@example.org"},"TEL":{"+1 555 0101"}'
cy='"EMAIL":{"cy@example.org","cy@work.example"},"TEL":{"+1 555 0103"}'
ann_a=$'Ann Lee,+1 555 0101,ann@example.org,1990-02-03\n'
cy_b=$'+1 555 0103,,Cy Oz,"likes ""tea"", black",cy@example.org|cy@work.example\n'
ann_b=$'+1 555 0101,19900203,Ann Lee,met in Oslo,ann@example.org\n'
books 'each side has changed' \
    "{$(card 'Ann Lee' "$ann"),$(card 'Bob Ray' '"TEL":{"+1 555 0102"}'),$(
        card 'Cy Oz' '"EMAIL":{"cy@example.org"},"TEL":{"+1 555 0103"}')}" \
    "$HEAD_A$ann_a"$'Bob Ray,+1 555 0199,,\nCy Oz,+1 555 0103,cy@example.org,\n' \
    "$HEAD_B$cy_b$ann_b"$'+1 555 0102,,Bob Ray,,\n' 0 agreed \
    "{$(card 'Ann Lee' "$ann"),$(card 'Bob Ray' '"TEL":{"+1 555 0199"}'),$(card 'Cy Oz' "$cy")}" \
    "$HEAD_A$ann_a"$'Bob Ray,+1 555 0199,,\nCy Oz,+1 555 0103,cy@example.org|cy@work.example,\n' \
    "$HEAD_B$cy_b$ann_b"$'+1 555 0199,,Bob Ray,,\n'
books 'a first run' absent "$HEAD_A"$'Ann,1,,\nBob,2,,\n' "$HEAD_B"$'1,,Ann,x,\n3,,Cy,y,\n' 0 agreed \
    "{$(card Ann '"TEL":{"1"}'),$(card Bob '"TEL":{"2"}'),$(card Cy '"TEL":{"3"}')}" \
    "$HEAD_A"$'Ann,1,,\nBob,2,,\nCy,3,,\n' "$HEAD_B"$'1,,Ann,x,\n3,,Cy,y,\n2,,Bob,,\n'
stay 'a first run of two tables without records' empty "$HEAD_A" "$HEAD_B" 0 agreed '{}'
books 'an only record is deleted' "{$(card Ann)}" "$HEAD_A" "$HEAD_B"$',,Ann,,\n' 0 agreed '{}' "$HEAD_A" "$HEAD_B"
books 'all records are new' '{}' "$HEAD_A" "$HEAD_B"$',,Ann,x,\n' 0 agreed "{$(card Ann)}" "$HEAD_A"$'Ann,,,\n' "$HEAD_B"$',,Ann,x,\n'

# A card that both sides have changed: texts of a set come together, and of two days none is right.
books 'a set that both have changed' "{$(card Ann '"TEL":{"1"}')}" "$HEAD_A"$'Ann,1|2,,\n' "$HEAD_B"$'3,,Ann,x,\n' 0 agreed \
    "{$(card Ann '"TEL":{"2","3"}')}" "$HEAD_A"$'Ann,2|3,,\n' "$HEAD_B"$'3|2,,Ann,x,\n'
books 'a day that both have changed' "{$(card Ann '"BDAY":{"19900203"}')}" \
    "$HEAD_A"$'Ann,1,,1990-02-04\n' "$HEAD_B"$',19900205,Ann,x,a@b.c\n' 1 \
    $'conflict /"Ann"/"*h"/"BDAY" names {"19900204","19900205"} {"19900204","19900205"}\nconflicts 1' \
    '{"Ann":{"*h":{"BDAY":!,"EMAIL":{"a@b.c"},"TEL":{"1"}},"*t"}}' \
    "$HEAD_A"$'Ann,1,a@b.c,1990-02-04\n' "$HEAD_B"$'1,19900205,Ann,x,a@b.c\n'
stay 'a day, and nothing has changed since' '{"Ann":{"*h":{"BDAY":!},"*t"}}' \
    "$HEAD_A"$'Ann,,,1990-02-04\n' "$HEAD_B"$',19900205,Ann,x,\n' 1 $'conflict /"Ann"/"*h"/"BDAY" earlier\nconflicts 1' \
    '{"Ann":{"*h":{"BDAY":!},"*t"}}'
stay 'a day, made alike by hand' '{"Ann":{"*h":{"BDAY":!},"*t"}}' \
    "$HEAD_A"$'Ann,,,1990-02-05\n' "$HEAD_B"$',19900205,Ann,x,\n' 0 agreed "{$(card Ann '"BDAY":{"19900205"}')}"
stay 'a record that one has deleted and the other changed' "{$(card Ann '"TEL":{"1"}')}" "$HEAD_A" "$HEAD_B"$'1|2,,Ann,x,\n' 1 \
    $'conflict /"Ann" lost /"Ann"/"*h"/"TEL"/"2"\nconflicts 1' '{"Ann":!}'
books 'a record is deleted, and the columns of the others that are not shown stay' \
    "{$(card Ann '"TEL":{"1"}'),$(card Bob '"TEL":{"2"}'),$(card Cy '"TEL":{"3"}')}" \
    "$HEAD_A"$'Cy,3,,\nAnn,1,,\n' "$HEAD_B"$'1,,Ann,x,\n2,,Bob,y,\n3,,Cy,z,\n' 0 agreed \
    "{$(card Ann '"TEL":{"1"}'),$(card Cy '"TEL":{"3"}')}" \
    "$HEAD_A"$'Cy,3,,\nAnn,1,,\n' "$HEAD_B"$'1,,Ann,x,\n3,,Cy,z,\n'
books 'new records stand behind, by their keys' "{$(card Mia '"TEL":{"1"}')}" "$HEAD_A"$'Mia,1,,\n' \
    "$HEAD_B"$'2,,Zoe,x,\n3,,Ärne,x,\n1,,Mia,x,\n4,,ann,x,\n5,,Ann,x,\n' 0 agreed \
    "{$(card Ann '"TEL":{"5"}'),$(card Mia '"TEL":{"1"}'),$(card Zoe '"TEL":{"2"}'),$(card ann '"TEL":{"4"}'),$(
        card Ärne '"TEL":{"3"}')}" \
    "$HEAD_A"$'Mia,1,,\nAnn,5,,\nZoe,2,,\nann,4,,\nÄrne,3,,\n' \
    "$HEAD_B"$'2,,Zoe,x,\n3,,Ärne,x,\n1,,Mia,x,\n4,,ann,x,\n5,,Ann,x,\n'

# Records with one key are told apart by their places.
readonly TWO_AL='{"Al":{"*h":{"TEL":{"1"}},"*t":{"*h":{"TEL":{"2"}},"*t"}}}'
books 'the second record of a key is deleted' "$TWO_AL" "$HEAD_A"$'Al,1,,\n' "$HEAD_B"$'1,,Al,x,\n5,,Bo,,\n2,,Al,y,\n' 0 agreed \
    "{$(card Al '"TEL":{"1"}'),$(card Bo '"TEL":{"5"}')}" "$HEAD_A"$'Al,1,,\nBo,5,,\n' "$HEAD_B"$'1,,Al,x,\n5,,Bo,,\n'
books 'the first record of a key is deleted' "$TWO_AL" "$HEAD_A"$'Al,2,,\n' "$HEAD_B"$'1,,Al,x,\n2,,Al,y,\n' 0 agreed \
    "{$(card Al '"TEL":{"2"}')}" "$HEAD_A"$'Al,2,,\n' "$HEAD_B"$'2,,Al,x,\n'
books 'records with a key that is there' "{$(card Al '"TEL":{"1"}'),$(card Bo)}" \
    "$HEAD_A"$'Al,1,,\nBo,,,\nAl,2,,\nAl,3,,\n' "$HEAD_B"$'1,,Al,x,\n,,Bo,y,\n' 0 agreed \
    '{"Al":{"*h":{"TEL":{"1"}},"*t":{"*h":{"TEL":{"2"}},"*t":{"*h":{"TEL":{"3"}},"*t"}}},'"$(card Bo)}" \
    "$HEAD_A"$'Al,1,,\nBo,,,\nAl,2,,\nAl,3,,\n' "$HEAD_B"$'1,,Al,x,\n,,Bo,y,\n2,,Al,,\n3,,Al,,\n'

# --- Fields of many texts, and of one ---

# pieces FIELD, the texts that it shows, other texts, the field afterwards, and how the other table spells the others
pieces() {
    books "the field $1 becomes $4" "{$(card Ann "\"TEL\":{$2}")}" "$HEAD_A""Ann,$1,,"$'\n' "$HEAD_B""$5,,Ann,x,"$'\n' 0 agreed \
        "{$(card Ann "\"TEL\":{$3}")}" "$HEAD_A""Ann,$4,,"$'\n' "$HEAD_B""$5,,Ann,x,"$'\n'
}

pieces '2|1' '"1","2"' '"1"' '1' '1'
pieces '2|1' '"1","2"' '"0","1","2","3"' '2|1|0|3' '3|2|1|0'
pieces '1|1|2|1' '"1","2"' '"1","3"' '1|1|1|3' '1|3'
pieces ' |1||2|' '"1","2"' '"2"' ' ||2|' '2'
pieces ' 1 |2' '" 1 ","2"' '" 1 ","3"' ' 1 |3' ' 1 |3'
pieces 'a\|b|c' '"a|b","c"' '"\\","a|b"' 'a\|b|\\' '\\|a\|b'
pieces 1 '"1"' '"1","2|3\\"' '1|2\|3\\' '1|2\|3\\'
pieces '\q|\\|x' '"\\","\\q","x"' '"\\","\\q"' '\\q|\\' '\q|\\'
pieces '"1,2|""3"""' '"\"3\"","1,2"' '"1,2","4"' '"1,2|4"' '"1,2|4"'
pieces $'"1\r\n2|3"' '"1\x0a2","3"' '"1\x0a2"' $'"1\r\n2"' $'"1\n2"'

# The last text of a set is taken away, with what isn't shown left, but for one piece of nothing.
no_text_left() {
    books "the field $1 becomes ${2:-empty}" "{$(card Ann '"TEL":{"1"}')}" "$HEAD_A""Ann,$1,,"$'\n' "$HEAD_B"$',,Ann,x,\n' 0 agreed \
        "{$(card Ann)}" "$HEAD_A""Ann,$2,,"$'\n' "$HEAD_B"$',,Ann,x,\n'
}
no_text_left 1 ''
no_text_left '1|' ''
no_text_left '|1|' '|'
no_text_left ' |1' ' '
no_text_left '1|1' ''

# A first text where there is none.
first_text() {
    books "the field ${1:-of nothing} becomes $2" "{$(card Ann)}" "$HEAD_A""Ann,$1,,"$'\n' "$HEAD_B"$'7,,Ann,x,\n' 0 agreed \
        "{$(card Ann '"TEL":{"7"}')}" "$HEAD_A""Ann,$2,,"$'\n' "$HEAD_B"$'7,,Ann,x,\n'
}
first_text '' 7
first_text ' ' ' |7'
first_text '|' '||7'

# day FIELD, BDAY in the archive and in B, FIELD afterwards
day() {
    books "the day ${1:-of nothing} becomes ${4:-nothing}" "{$(card Ann "${2:+\"BDAY\":{\"$2\"\}}")}" \
        "$HEAD_A""Ann,,,$1"$'\n' "$HEAD_B"",$3,Ann,x,"$'\n' 0 agreed \
        "{$(card Ann "${3:+\"BDAY\":{\"$3\"\}}")}" "$HEAD_A""Ann,,,$4"$'\n' "$HEAD_B"",$3,Ann,x,"$'\n'
}
day 1990-02-03 19900203 19900204 1990-02-04
day 1990-02-03 19900203 '' ''
day '' '' 19900204 1990-02-04
day '   ' '' 19900204 1990-02-04
day 'in May' 'in May' 'in June' 'in June'
day 1990-02-31 1990-02-31 19000229 19000229

# --- Bytes ---

readonly ANN_1="{$(card Ann '"TEL":{"1"}')}" ANN_2="{$(card Ann '"TEL":{"2"}')}" MARK=$'\xef\xbb\xbf'
stay 'line ends, quotes, a mark in front and no end of the last line' absent \
    "$MARK"$'Name,"Phone",Email,Birthday\r\n\r\n"Ann","1",,""' $'TEL,BDAY,Who,Notes,EMAIL\r\n"1",,"Ann","a\r\nb",\r\n' 0 agreed "$ANN_1"
books 'written anew, with its mark' "$ANN_1" \
    "$MARK"$'Name,"Phone",Email,Birthday\r\n\r\n"Ann","1",,""' "$HEAD_B"$'2,,Ann,"a\r\nb",\n' 0 agreed "$ANN_2" \
    "$MARK$HEAD_A"$'Ann,2,,\n' "$HEAD_B"$'2,,Ann,"a\r\nb",\n'
books 'written anew, with fields of several lines, for a table that keeps its bytes' "$ANN_1" \
    $'Name,"Phone",Email,Birthday\r\nAnn,"2",,\r\n' \
    $'TEL,BDAY,Who,"No\r\ntes",EMAIL\r\n"1",,"Ann"," a\r\nb ""c"" ",\r\n' 0 agreed "$ANN_2" \
    $'Name,"Phone",Email,Birthday\r\nAnn,"2",,\r\n' $'TEL,BDAY,Who,"No\r\ntes",EMAIL\n2,,Ann," a\r\nb ""c"" ",\n'
stay 'texts are shown without control characters' absent \
    $'Na\x01me,Phone,Email,Birthday\nA\x7fnn,1,,\n' "$HEAD_B"$'\x021,\x03,Ann,x,\n' 0 agreed "$ANN_1"
books 'a field with control characters stays where its text does' "$ANN_1" \
    "$HEAD_A"$'A\x7fnn,\x021|3,,\n' "$HEAD_B"$'1,,Ann,x,\n' 0 agreed "{$(card Ann '"TEL":{"1","3"}')}" \
    "$HEAD_A"$'A\x7fnn,\x021|3,,\n' "$HEAD_B"$'1|3,,Ann,x,\n'

# A table on one side, and a tree on the other.
book_lens_b=$'harmony lens 1\nformat tree'${CARDS#$'harmony schema 1\n'}$'\nmain = id'
book_lens_b=${book_lens_b/treeroot /tree root=}
books 'a table and a tree' "$ANN_1" "$HEAD_A"$'Ann,1|3,,\n' '{"Ann":{"*h":{"TEL":{"1"}},"*t":{"*h","*t"}}}'$'\n' 0 agreed \
    '{"Ann":{"*h":{"TEL":{"1","3"}},"*t":{"*h","*t"}}}' \
    "$HEAD_A"$'Ann,1|3,,\nAnn,,,\n' '{"Ann":{"*h":{"TEL":{"1","3"}},"*t":{"*h","*t"}}}'$'\n'
stay 'a table, and a tree that is no address book' "$ANN_1" "$HEAD_A"$'Ann,1,,\n' '{"Ann":{"TEL":{"1"}}}'$'\n' 3 \
    'harmony: BadReplica B Outside /"Ann"' "$ANN_1"

# One table in which a text stands on two lines, and one in which it is written with other line ends.
book_schema=$(book_of $'  edge NOTE Texts\n  shape ? NOTE')
book_lens_a=$(table_lens 'key=Name many=Note' "map(list($(renamed Note NOTE)))")
book_lens_b=$(table_lens 'key=Name many=NOTE' id)
stay 'a text on two lines' absent $'Name,Note\r\nAnn,"say ""hi""\r\nnow"\r\n' $'NOTE,Name\n"say ""hi""\nnow",Ann\n' 0 agreed \
    "{$(card Ann '"NOTE":{"say \"hi\"\x0anow"}')}"

# Two text lenses in a chain, on both sides.
book_schema=$(book_of $'  edge Email Mail\n  shape ? Email\nnode Mail\n  other folded Empty\n  shape + 1..1')
book_lens_a=$(table_lens 'key=Name show=Email' 'map(list(wmap(Email=text(email))))')
book_lens_b=$book_lens_a
stay 'addresses are alike but for spaces and case' absent $'Name,Email\nAnn, Ann@Example.org \n' $'Name,Email\nAnn,ann@example.org\n' \
    0 agreed "{$(card Ann '"Email":{"ann@example.org"}')}"
books 'an address has changed beside one that is alike' "{$(card Ann '"Email":{"a@b.c"}'),$(card Bob '"Email":{"b@b.c"}')}" \
    $'Name,Email\nAnn, A@b.c \nBob,B@B.C\n' $'Name,Email\nAnn,a@b.c\nBob,New@b.c\n' 0 agreed \
    "{$(card Ann '"Email":{"a@b.c"}'),$(card Bob '"Email":{"new@b.c"}')}" \
    $'Name,Email\nAnn, A@b.c \nBob,new@b.c\n' $'Name,Email\nAnn,a@b.c\nBob,New@b.c\n'

# --- Which bytes are tables ---

book_schema=$CARDS book_lens_a=$PLAIN_TITLES book_lens_b=$PLAIN_TITLES

a_table 'titles and fields between quotes' $'"Name","Phone","Email","Birthday"\n"Ann","1, 2","","x ""y"""\n' \
    "$HEAD_A"$'Ann,"1, 2",,"x ""y"""\n'
a_table 'a column that is not shown, in front' $'Notes,Name,Phone,Email,Birthday\nx,Ann,1,,\n' "$HEAD_A"$'Ann,1,,\n'
a_table 'of equal titles the first counts' $'Name,Phone,Email,Birthday,Phone,Name\nAnn,1,,,2,Bob\n' "$HEAD_A"$'Ann,1,,\n'
a_table 'titles with control characters' $'\x01Name,Ph\x02one,Email\x7f,Birthday\nAnn,1,,\n' "$HEAD_A"$'Ann,1,,\n'
a_table 'empty lines' $'\n\r\nName,Phone,Email,Birthday\n\nAnn,1,,\n\n\nBob,2,,\n\n' "$HEAD_A"$'Ann,1,,\nBob,2,,\n'
a_table 'lines that end in CR' $'Name,Phone,Email,Birthday\rAnn,1,,\rBob,2,,\r' "$HEAD_A"$'Ann,1,,\nBob,2,,\n'
a_table 'no end of the last line' $'Name,Phone,Email,Birthday\nAnn,1,,\nBob,2,,' "$HEAD_A"$'Ann,1,,\nBob,2,,\n'
a_table 'quotes in a field without quotes around it' $'Name,Phone,Email,Birthday\nA"n"n,1,,\n' "$HEAD_A"$'"A""n""n",1,,\n'
a_table 'spaces around fields' $'Name,Phone,Email,Birthday\n Ann , 1 ,,\n' "$HEAD_A"$' Ann , 1 ,,\n'
a_table 'keys that are alike but for spaces and case' "$HEAD_A"$'ann,1,,\nAnn ,2,,\nAnn,3,,\n' \
    "$HEAD_A"$'Ann,3,,\nAnn ,2,,\nann,1,,\n'
a_table 'as many records of one key as can be' "$HEAD_A$(repeated 997 'Al,1,,\n%.0s')"$'\n' "$HEAD_A$(repeated 997 'Al,1,,\n%.0s')"$'\n'

refuse_table 'BadItem 1' ''
refuse_table 'BadItem 1' $'\n\r\n\n'
refuse_table 'BadItem 1' "$MARK"
refuse_table 'BadItem 1' "$MARK$MARK$HEAD_A"
refuse_table 'BadItem 1' $'Name,Phone,Email\nAnn,1,\n'
refuse_table 'BadItem 1' $'name,Phone,Email,Birthday\n'
refuse_table 'BadItem 1' $'Name ,Phone,Email,Birthday\n'
refuse_table 'BadItem 1' $'Name;Phone;Email;Birthday\n'
refuse_table 'BadItem 1' $'Who,Phone,Email,Birthday\nAnn,1\n,,,\n'
refuse_table 'BadItem 2' "$HEAD_A"$'Ann,1,,,\n'
refuse_table 'BadItem 2' "$HEAD_A"$'"Ann,1,,\n'
refuse_table 'BadItem 3' "$HEAD_A"$'Ann,1,,\nBob,2,\nCy,3,,\n'
refuse_table 'BadItem 3' "$HEAD_A"$'\n"Ann\n",1,,\n\n\nBob\nCy\n'
refuse_table 'BadItem 4' "$HEAD_A"$',1,,\nAnn,1,,\nBob,2,\n'
refuse_table 'NoKey 2' "$HEAD_A"$',1,,\nAnn,1,,\n,1,,\n'
refuse_table 'NoKey 3' "$HEAD_A"$'Ann,1,,\n"  ",1,,\n'
refuse_table 'NoKey 3' "$HEAD_A"$'Ann,1,,\n\x01,1,,\n'
refuse_table 'NotUtf8 0' $'\xff'"$HEAD_A"
refuse_table 'NotUtf8 29' "$MARK$HEAD_A"$'\xffAnn,1\n'
refuse_table 'NotUtf8 29' "$HEAD_A"$'\n\nA\xc3'
refuse_table 'NotUtf8 33' $'Who,Phone,Email,Birthday\n,,\nAnn,1\xed\xa0\x80\n'
refuse_table 'TooDeep 1001' "$HEAD_A$(repeated 998 'Al,1,,\n%.0s')"
refuse_table 'TooDeep 1001' "$HEAD_A$(repeated 1000 'Al,,,\n%.0s')"
refuse_table 'TooDeep 2003' "$HEAD_A$(repeated 1500 'Bo,1,,\n%.0s')"$'\n'"$(repeated 2000 'Al,1,,\nCy,1,,\n%.0s')"
refuse_table 'NoKey 1002' "$HEAD_A$(repeated 1000 'Al,1,,\n%.0s')"$'\n,1,,\n'

# Of several options that aren't as they may be the first is told, and one that is missing behind them.
bad_option key ''
bad_option key show=Phone
bad_option key key=Name,Phone
bad_option key 'key=Name key=Name'
bad_option key 'show=Name key=Name'
bad_option show 'key=Name show=Name'
bad_option show 'key=Name show=Phone show=Email'
bad_option show 'key=Name show=Phone,Email,Phone many=Name'
bad_option many 'key=Name show=Phone many=Email,Phone'
bad_option many 'many=Phone,Phone show=Email,Email key=Name'
bad_option root 'key=Name root=Name'
bad_option wide 'wide=Name show=Phone'

# refuse_table_lens FAULT OPTIONS MAIN
refuse_table_lens() {
    refuse_lens "$1" "$(table_lens "$2" "$3")"
}

refuse_table_lens 'Mistyped 1 3 4' 'key=Name many=Phone' 'map(list(hoist(Phone)))'
refuse_table_lens 'Mistyped 1 4 14' 'key=Name many=Phone' 'map(list(wmap(Phone=text(date))))'
refuse_table_lens 'UnknownLens "mail"' 'key=Name show=Phone' 'map(list(wmap(Phone=text(mail))))'
refuse_table_lens 'TwinLeft 1 5' 'key=Name' 'map(list(plunge(a);copy(a,b)))'
refuse_table_lens WrongView 'key=Name' id

# wrong_view_of_b OPTIONS MAIN: trees of the schema are shown of A, and others of B
wrong_view_of_b() {
    begin "a table of another schema: $1 $2"
    tables . absent "$HEAD_A" "$HEAD_B"
    make lensB "$(table_lens "$1" "$2")"
    cp -- * ../want
    sync
    ends 3 'harmony: WrongView lensB'
    finish
}

wrong_view_of_b 'key=Who show=BDAY many=TEL,EMAIL' 'plunge(x)'
wrong_view_of_b 'key=Who show=BDAY many=TEL' id
wrong_view_of_b 'key=Who many=BDAY,TEL,EMAIL' id
wrong_view_of_b 'key=Who show=BDAY many=TEL,Email' id
wrong_view_of_b 'key=Who show=BDAY many=TEL,EMAIL,Notes' id

# --- What can't be written ---

book_lens_b=$CARD_TITLES

# filled_b SIZE: a table of so many bytes, most of them in a column that isn't shown
filled_b() {
    printf '%s1,,Ann,' "$HEAD_B"
    head -c $(($1 - ${#HEAD_B} - 9)) /dev/zero | tr '\0' a
    printf ',\n'
}

# largest_table TITLE SIZE, STATUS LINES: B has so many bytes, and is to get a record of nine more
largest_table() {
    begin "$1"
    tables . "$ANN_1" "$HEAD_A"$'Ann,1,,\nBob,2,,\n' ''
    filled_b "$2" >B
    cp -- * ../want
    if [[ $3 == 0 ]]; then
        make ../want/archive "{$(card Ann '"TEL":{"1"}'),$(card Bob '"TEL":{"2"}')}"
        printf '2,,Bob,,\n' >>../want/B
    fi
    sync
    ends "$3" "$4"
    finish
}

largest_table 'the largest new table' $((LARGEST - 9)) 0 agreed
largest_table 'a table to grow too large' $((LARGEST - 8)) 3 "harmony: Overgrown B $((LARGEST + 1))"
largest_table 'a table that is as large as may be' $LARGEST 3 "harmony: Overgrown B $((LARGEST + 9))"
largest_table 'a table that is too large' $((LARGEST + 1)) 3 'harmony: TooLarge B'

# Cards of which nothing is shown. Where B makes a new one, it has a text in the column Email, and is deeper than A's.
book_schema=$(book_of '  shape')
book_lens_a=$(table_lens 'key=Name' id)
book_lens_b=$(table_lens 'key=Name many=Email,Phone' \
    'map(list(ccond(Phone,const({},{"Phone":{"x"}}),const({},{"Email":{"x"}}))))')

# deep_table TITLE NUMBER A, STATUS LINES: A has so many records of one key, which B is to get
deep_table() {
    local records
    records=$(repeated "$2" 'Al,\n%.0s')
    begin "$1"
    tables . empty "$3"$'\n'"$records"$'\n' $'Name,Email,Phone\nBob,,\n'
    cp -- * ../want
    sync
    if [[ $4 == 0 ]]; then
        printf 'Bob,\n' >>../want/A
        repeated "$2" 'Al,x,\n%.0s' >>../want/B
        cp archive ../want
    fi
    ends "$4" "$5"
    finish
}

deep_table 'the deepest new table' 997 Name,Notes 0 agreed
deep_table 'a table to be deeper by one' 998 Name,Notes 3 'harmony: Unwritable B 1001'
deep_table 'a table to be deeper by two' 999 Name,Notes 3 'harmony: Unwritable B 1002'

# A title so long that A would be too large once it has a record of five bytes more. What is too deep is told before.
wide=$(head -c $((LARGEST - 998 * 4 - 6)) /dev/zero | tr '\0' a)
deep_table 'a table to be too deep, and one to grow too large' 998 "Name,$wide" 3 'harmony: Unwritable B 1001'
deep_table 'a table to grow too large, and none to be too deep' 997 "Name,${wide}aaaa" 3 "harmony: Overgrown A $((LARGEST + 5))"
unset wide

# shellcheck shell=bash
# Files of vCards: address books whose people are cards, beside tables.

readonly CARD_LENS=$'harmony lens 1\nformat vcard show=BDAY,EMAIL,TEL\nmain = id'
readonly HEAD=$'Name,Phone,Email,Birthday\n'
book_schema=$CARDS book_lens_a=$PLAIN_TITLES

# lines VARIABLE LINE...: the lines, each with its end
lines() {
    printf -v "$1" '%s\r\n' "${@:2}"
}

# vcard VARIABLE LINE...: a card of these properties
vcard() {
    lines "$1" BEGIN:VCARD VERSION:4.0 "${@:2}" END:VCARD
}

# contacts TITLE, archive A B before, STATUS LINES, archive A B afterwards: A is a table, and B has cards
contacts() {
    book_lens_b=$CARD_LENS books "cards: $1" "${@:2}"
}

contacts_stay() {
    book_lens_b=$CARD_LENS stay "cards: $1" "${@:2}"
}

# refuse_lines WHAT LENS NOTHING FAULT TEXT: a text that the format of the lens refuses, on either side, beside a file that it
# reads; the text has its escapes, as printf knows them
refuse_lines() {
    local slot
    for slot in A B; do
        begin "no $1: $slot: $4: ${5::200}"
        book_lens_a=$2 book_lens_b=$2 tables . absent "$3" "$3"
        printf %b "$5" >$slot
        cp -- * ../want
        sync
        ends 3 "harmony: BadReplica $slot $4"
        finish
    done
}

refuse_cards() {
    refuse_lines cards "$CARD_LENS" '' "$@"
}

# --- What cards become ---

vcard ann_card 'FN:Ann Lee' 'BDAY:19900203' 'EMAIL:ann@example.org' 'TEL;TYPE=cell:+1 555 0101'
vcard bob_card 'FN:Bob Ray' 'TEL:+1 555 0102'
vcard bob_new 'FN:Bob Ray' 'TEL:+1 555 0199'
vcard cy_card 'FN:Cy Oz' 'EMAIL:cy@example.org' 'EMAIL:cy@work.example' 'TEL:+1 555 0103'
ann_row=$'Ann Lee,+1 555 0101,ann@example.org,1990-02-03\nBob Ray,+1 555 0199,,\n'
contacts 'each side has changed' \
    "{$(card 'Ann Lee' "$ann"),$(card 'Bob Ray' '"TEL":{"+1 555 0102"}'),$(card 'Cy Oz' '"EMAIL":{"cy@example.org"},"TEL":{"+1 555 0103"}')}" \
    "$HEAD$ann_row"$'Cy Oz,+1 555 0103,cy@example.org,\n' "$ann_card$bob_card$cy_card" \
    0 agreed \
    "{$(card 'Ann Lee' "$ann"),$(card 'Bob Ray' '"TEL":{"+1 555 0199"}'),$(card 'Cy Oz' "$cy")}" \
    "$HEAD$ann_row"$'Cy Oz,+1 555 0103,cy@example.org|cy@work.example,\n' "$ann_card$bob_new$cy_card"

vcard ann_one FN:Ann TEL:1
vcard cy_three FN:Cy TEL:3
vcard bob_two FN:Bob TEL:2
contacts 'a first run' \
    absent "$HEAD"$'Ann,1,,\nBob,2,,\n' "$ann_one$cy_three" \
    0 agreed \
    "{$(card Ann '"TEL":{"1"}'),$(card Bob '"TEL":{"2"}'),$(card Cy '"TEL":{"3"}')}" \
    "$HEAD"$'Ann,1,,\nBob,2,,\nCy,3,,\n' "$ann_one$cy_three$bob_two"

contacts_stay 'nothing at all' empty "$HEAD" '' 0 agreed '{}'

long=$(printf 'A%.0s' {1..60})
lines hidden BEGIN:VCARD VERSION:4.0 'PHOTO:data:image/gif;base64,' " $long" 'FN:Ann Lee' \
    'item1.TEL;TYPE="cell,voice":+1 555 0101' 'N:Lee;Ann;;;' END:VCARD
lines hidden_new BEGIN:VCARD VERSION:4.0 "PHOTO:data:image/gif;base64,${long::47}" " ${long::13}" 'FN:Ann Lee' \
    'item1.TEL;TYPE="cell,voice":+1 555 0101' 'N:Lee;Ann;;;' EMAIL:ann@example.org END:VCARD
contacts 'what the other side does not see' \
    "{$(card 'Ann Lee' '"TEL":{"+1 555 0101"}')}" \
    "$HEAD"$'Ann Lee,+1 555 0101,ann@example.org,\n' "$hidden" \
    0 agreed \
    "{$(card 'Ann Lee' '"EMAIL":{"ann@example.org"},"TEL":{"+1 555 0101"}')}" \
    "$HEAD"$'Ann Lee,+1 555 0101,ann@example.org,\n' "$hidden_new"

vcard al_one FN:Al TEL:1
vcard al_two FN:Al TEL:2
contacts 'one of two with one name is gone' \
    '{"Al":{"*h":{"TEL":{"1"}},"*t":{"*h":{"TEL":{"2"}},"*t"}}}' "$HEAD"$'Al,1,,\n' "$al_one$al_two" \
    0 agreed \
    "{$(card Al '"TEL":{"1"}')}" "$HEAD"$'Al,1,,\n' "$al_one"

# What Harmony doesn't write stays where nothing changes: ends of lines, folds, case, groups, empty lines, values of spaces.
lines odd begin:vcard VERSION:4.0 '' $'fn;language=en:An\r\n n' 'a.tel;type=cell;pref=1:1' 'TEL: ' X-OTHER:y end:vcard
contacts_stay 'lines as others write them' \
    absent "$HEAD"$'Ann,1,,\n' "${odd//$'\r'/}"$'\n\n' 0 agreed "{$(card Ann '"TEL":{"1"}')}"

vcard day_one FN:Ann 'BDAY;X=1:19900203' 'BDAY: ' N:Lee TEL:1
vcard day_two FN:Ann 'BDAY;X=1:19900204' 'BDAY: ' N:Lee TEL:1
contacts 'a birthday is written into its line' \
    "{$(card Ann '"BDAY":{"19900203"},"TEL":{"1"}')}" "$HEAD"$'Ann,1,,1990-02-04\n' "$day_one" \
    0 agreed \
    "{$(card Ann '"BDAY":{"19900204"},"TEL":{"1"}')}" "$HEAD"$'Ann,1,,1990-02-04\n' "$day_two"

vcard escaped 'FN:Lee\, Ann\; Dr.' 'TEL:1'
contacts 'a name with signs that are escaped' \
    absent "$HEAD"$'"Lee, Ann; Dr.",1,,\n' '' \
    0 agreed \
    "{$(card 'Lee, Ann; Dr.' '"TEL":{"1"}')}" "$HEAD"$'"Lee, Ann; Dr.",1,,\n' "$escaped"

# A text of two lines is one field, and one value with \n.
note_lens_a=$(table_lens 'key=Name many=Note' "map(list($(renamed Note NOTE)))")
note_lens_b=$'harmony lens 1\nformat vcard show=NOTE\nmain = id'
note_schema=$(book_of $'  edge NOTE Texts\n  shape ? NOTE')
vcard noted FN:Ann 'NOTE:say "hi"\nnow'
book_schema=$note_schema book_lens_a=$note_lens_a book_lens_b=$note_lens_b \
    stay 'cards: a text of two lines' absent $'Name,Note\r\nAnn,"say ""hi""\r\nnow"\r\n' "$noted" \
    0 agreed '{"Ann":{"*h":{"NOTE":{"say \"hi\"\x0anow"}},"*t"}}'

# A card that both changed in unlike ways is left as it is, and told.
vcard day_three FN:Ann BDAY:19900203 TEL:1
contacts_stay 'a birthday that both changed' \
    "{$(card Ann '"BDAY":{"19900101"},"TEL":{"1"}')}" "$HEAD"$'Ann,1,,1990-02-04\n' "$day_three" \
    1 $'conflict /"Ann"/"*h"/"BDAY" names {"19900203","19900204"} {"19900203","19900204"}\nconflicts 1' \
    '{"Ann":{"*h":{"BDAY":!,"TEL":{"1"}},"*t"}}'

# --- Cards that are refused ---

card_lines='BEGIN:VCARD\nVERSION:4.0\n'
refuse_cards 'NoKey 2' "${card_lines}FN:a\nEND:VCARD\n${card_lines}TEL:1\nEND:VCARD\n"
refuse_cards 'NoKey 1' "${card_lines}FN: \nEND:VCARD\n"
refuse_cards 'BadItem 2' 'BEGIN:VCARD\nVERSION:3.0\nFN:a\nEND:VCARD\n'
refuse_cards 'BadItem 2' 'BEGIN:VCARD\nFN:a\nVERSION:4.0\nEND:VCARD\n'
refuse_cards 'BadItem 1' '\xEF\xBB\xBFBEGIN:VCARD\nVERSION:4.0\nFN:a\nEND:VCARD\n'
refuse_cards 'BadItem 4' "${card_lines}FN:a\nno line\nEND:VCARD\n"
refuse_cards 'BadItem 5' "${card_lines}BDAY:1\nFN:a\nx.bday:2\nEND:VCARD\n"
refuse_cards 'BadItem 4' "${card_lines}FN:a\n"
refuse_cards 'BadItem 6' "${card_lines}FN:a\nEND:VCARD\n\nx\n"
refuse_cards 'NotUtf8 3' 'x\r\n y\n\xFF'

for options in 'show=FN' 'show=TEL,TEL' 'show=tel'; do
    begin "lensB: options $options"
    book_lens_b=$CARD_LENS tables . absent "$HEAD" ''
    make lensB $'harmony lens 1\nformat vcard '"$options"$'\nmain = id'
    cp -- * ../want
    sync
    ends 3 'harmony: BadOption lensB "show"'
    finish
done

begin 'lensB: a view of cards that is another'
book_lens_b=$CARD_LENS tables . absent "$HEAD" ''
make lensB "${CARD_LENS/main = id/main = plunge(x)}"
cp -- * ../want
sync
ends 3 'harmony: WrongView lensB'
finish

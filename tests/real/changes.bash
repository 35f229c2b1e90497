# shellcheck shell=bash
# What harmony-changes tells of six files, where it is there. That it refuses what a plan refuses, and tells the
# conflicts of a plan, is seen in front of each synchronisation of the other checks (check.bash), and its faults of
# files and of outputs are those of the commands (commands.bash).

readonly USAGE_CHANGES='usage: harmony-changes [--most N] SCHEMA LENS_A LENS_B ARCHIVE A B'
readonly BOOK_GUIDE=$top/docs/GUIDE.md
# One name, with its accent as a character of its own and in one with the letter.
readonly APART=$'Zoe\xcc\x88' JOINED=$'Zo\xc3\xab'

# numbers SIDE ADDED DELETED ENTRIES ADDED DELETED CHANGED: the line of a side
numbers() {
    printf '%s: %s added, %s deleted; %s entries: %s added, %s deleted, %s changed\n' "$@"
}

# looks STATUS LINE..: what is told of the files as they are, all of which are left alone
looks() {
    local old
    cp -P -- * ../want
    old=$(state_of ./*)
    carry_out changes
    [[ $(state_of ./*) == "$old" ]] || fault 'a file was touched'
    ends "$1" "$(printf '%s\n' "${@:2}")"
}

# told TITLE, archive A B, STATUS LINE..: of files of any tree
told() {
    begin "changes: $1"
    unchanged "${@:2:3}"
    looks "${@:5}"
    finish
}

# braked TITLE, archive A B, NUMBER STATUS: where so many entries of a side would be deleted, with the flag for so many,
# for more and for fewer
braked() {
    local most flags
    begin "changes: the most, $1"
    unchanged "${@:2:3}"
    carry_out changes
    cp ../out ../whole
    for most in $(($5 - 1)) "$5" $(($5 + 1)); do
        [[ $most -ge 0 ]] || continue
        for flags in "--most $most" "--most=$most"; do
            # shellcheck disable=SC2086 # These are one word, or two.
            carry_out changes $flags
            ends "$((most < $5 ? 7 : $6))" "$(<../whole)"
        done
    done
    finish
}

# meaningless TITLE WORD..: words without a meaning
meaningless() {
    begin "changes: words: $1"
    no_change
    program=$changes run "${@:2}" >../out
    ends 2 "$USAGE_CHANGES"
    finish
}

# meaningful STATUS WORD..: words that ask for a look at the six files, in which two entries of B would be deleted
meaningful() {
    begin "changes: words: ${*:2}"
    unchanged '{"a","b"}' '{}' '{"a","b"}'
    program=$changes run "${@:2}" >../out
    ends "$1" $'B - /"a"\nB - /"b"\n'"$(numbers B 0 2 2 0 2 0)"$'\nagreed'
    finish
}

# --- The lines, over any tree ---

lines_over_trees() {
    told 'nothing is new' "$OLD" "$OLD" "$OLD" 0 agreed
    told 'nothing is new to the other side' "$OLD" "$NEW" "$NEW" 0 agreed
    told 'a first run, of equal files' absent "$NEW" "$NEW" 0 'first run' agreed
    told 'a first run, without an archive' absent "$NEW" "$OTHER" 0 \
        'first run' 'A + /"other"' 'B + /"new"' "$(numbers A 1 0 1 1 0 0)" "$(numbers B 1 0 1 1 0 0)" agreed
    told 'a first run, with an archive that has no bytes' empty "$NEW" '{}' 0 \
        'first run' 'B + /"new"' "$(numbers B 1 0 0 1 0 0)" agreed
    told 'an archive of nothing, which is none of a first run' '{}' "$NEW" '{}' 0 \
        'B + /"new"' "$(numbers B 1 0 0 1 0 0)" agreed
    told 'what comes to A' '{"old"}' '{"old"}' '{"new","old"}' 0 'A + /"new"' "$(numbers A 1 0 1 1 0 0)" agreed
    told 'what goes from A' '{"a","old"}' '{"a","old"}' '{"a"}' 0 'A - /"old"' "$(numbers A 0 1 2 0 1 0)" agreed
    told 'what comes to B' '{"old"}' '{"new","old"}' '{"old"}' 0 'B + /"new"' "$(numbers B 1 0 1 1 0 0)" agreed
    told 'what goes from B' '{"a","old"}' '{"a"}' '{"a","old"}' 0 'B - /"old"' "$(numbers B 0 1 2 0 1 0)" agreed
    told 'what goes and comes on both sides' '{"a":{"1"},"b"}' '{"a":{"2"},"b"}' '{"a":{"1"},"c"}' 0 \
        'A - /"b"' 'A + /"c"' 'B - /"a"/"1"' 'B + /"a"/"2"' "$(numbers A 1 1 2 1 1 0)" "$(numbers B 1 1 2 0 0 1)" agreed
    told 'the topmost paths alone' '{"x":{"gone":{"1":{"2"}}}}' '{"new":{"1":{"2"}},"x":{"y":{"z"}}}' \
        '{"x":{"gone":{"1":{"2"}}}}' 0 \
        'B + /"new"' 'B - /"x"/"gone"' 'B + /"x"/"y"' "$(numbers B 2 1 1 1 0 1)" agreed
    told 'paths in the order of their bytes' '{}' '{"B":{"x"},"a":{"z"},"a ","b","ä"}' '{"a"}' 0 \
        'B + /"B"' 'B + /"a"/"z"' 'B + /"a "' 'B + /"b"' 'B + /"ä"' \
        'alike A /"B" A /"b"' 'alike A /"a" A /"a "' "$(numbers B 5 0 1 4 0 1)" agreed
    told 'names as they are spelled' '{}' '{"","\x0a","\"q\" \\","a/b"}' '{}' 0 \
        'B + /""' 'B + /"\x0a"' 'B + /"\"q\" \\"' 'B + /"a/b"' "$(numbers B 4 0 0 4 0 0)" agreed
    told 'how many entries change' '{"a":{"1","2"},"b":{"1"},"c","d"}' '{"a":{"1","3","4"},"b","c":{"5"},"d","e"}' \
        '{"a":{"1","2"},"b":{"1"},"c","d"}' 0 \
        'B - /"a"/"2"' 'B + /"a"/"3"' 'B + /"a"/"4"' 'B - /"b"/"1"' 'B + /"c"/"5"' 'B + /"e"' \
        "$(numbers B 4 2 4 1 0 3)" agreed
}

conflicts_over_trees() {
    told 'a conflict' "$OLD" "$KEPT" "$GONE" 1 'conflict /"old" lost /"old"/"new"' 'conflicts 1'
    told 'a conflict from before' '!' "$NEW" "$OTHER" 1 'conflict / earlier' 'conflicts 1'
    told 'conflicts beside what comes and goes' '{"a":{"1"},"b":{"1"},"c"}' '{"a":{"2"},"d"}' '{"b":{"2"},"c"}' 1 \
        'B - /"c"' 'B + /"d"' 'conflict /"a" lost /"a"/"2"' 'conflict /"b" lost /"b"/"2"' "$(numbers B 1 1 2 1 1 0)" \
        'conflicts 2'
}

# --- Names that are alike ---

# alike_names TITLE NAME NAME: names of which A has the greater one
alike_names() {
    told "names that are alike but for $1" '{}' "{\"$3\"}" "{\"$2\"}" 0 \
        "A + /\"$2\"" "B + /\"$3\"" "alike B /\"$2\" A /\"$3\"" \
        "$(numbers A 1 0 1 1 0 0)" "$(numbers B 1 0 1 1 0 0)" agreed
}

alike_over_trees() {
    alike_names case 'DAN PO' 'Dan Po'
    alike_names 'the case of other letters' 'ÄNNE' 'änne'
    alike_names 'the case of a letter that two stand for' STRASSE Straße
    alike_names 'a space in front' ' Dan' Dan
    alike_names 'spaces behind' Dan 'Dan  '
    alike_names 'a doubled space' 'Dan  Po' 'Dan Po'
    alike_names 'the Unicode form, canonical' "$APART" "$JOINED"
    alike_names 'the Unicode form, compatible' Griffin $'Gri\xef\xac\x83n'
    alike_names 'all of these at once' " ${APART^^}  PO" "$JOINED Po"
    told 'three names of one thing' '{"ann"}' '{"ANN","ann"}' '{"Ann","ann"}' 0 \
        'A + /"Ann"' 'B + /"ANN"' 'alike A /"ANN" B /"Ann" A /"ann"' \
        "$(numbers A 1 0 2 1 0 0)" "$(numbers B 1 0 2 1 0 0)" agreed
    told 'another case on one side' '{"Ann":{"1"}}' '{"ANN":{"1"}}' '{"Ann":{"1"}}' 0 \
        'B + /"ANN"' 'B - /"Ann"' 'alike A /"ANN" B /"Ann"' "$(numbers B 1 1 1 1 1 0)" agreed
    told 'names below one parent' '{"x":{"a@b.c"}}' '{"x":{"A@b.c","a@b.c"}}' '{"x":{"a@b.c"}}' 0 \
        'B + /"x"/"A@b.c"' 'alike A /"x"/"A@b.c" A /"x"/"a@b.c"' "$(numbers B 1 0 1 0 0 1)" agreed
    told 'names below two parents' '{"x","y"}' '{"x":{"Ann"},"y"}' '{"x","y":{"ann"}}' 0 \
        'A + /"y"/"ann"' 'B + /"x"/"Ann"' "$(numbers A 1 0 2 0 0 1)" "$(numbers B 1 0 2 0 0 1)" agreed
    told 'names of which none comes or goes' '{"Ann","ann","x"}' '{"Ann","ann","x","y"}' '{"Ann","ann","x"}' 0 \
        'B + /"y"' "$(numbers B 1 0 3 1 0 0)" agreed
    told 'names that differ in more' '{}' '{"Dan Po"}' '{"DanPo"}' 0 \
        'A + /"DanPo"' 'B + /"Dan Po"' "$(numbers A 1 0 1 1 0 0)" "$(numbers B 1 0 1 1 0 0)" agreed
}

# --- Words ---

words_of_changes() {
    meaningless 'none'
    meaningless 'five names' "${SIX[@]:1}"
    meaningless 'seven names' "${SIX[@]}" C
    meaningless 'a command in front' sync "${SIX[@]}"
    meaningless 'another flag' --quiet "${SIX[@]}"
    meaningless 'a flag as a name' "${SIX[@]::5}" -x
    meaningless 'a part of the flag' --mos 5 "${SIX[@]}"
    meaningless 'the flag by a letter' -m 5 "${SIX[@]}"
    meaningless 'the flag without a number' "${SIX[@]}" --most
    meaningless 'the flag with nothing behind =' --most= "${SIX[@]}"
    meaningless 'the flag with an empty number' --most '' "${SIX[@]}"
    meaningless 'the flag with a word' --most five "${SIX[@]}"
    meaningless 'the flag with a word behind =' --most=5x "${SIX[@]}"
    meaningless 'the flag with a number below 0' --most -1 "${SIX[@]}"
    meaningless 'the flag with a fraction' --most 1.5 "${SIX[@]}"
    meaningless 'the flag twice' --most 5 "${SIX[@]}" --most 5
    meaningless 'the flag twice, with =' --most=5 --most=5 "${SIX[@]}"
    meaningless 'the flag behind the end of the flags' -- "${SIX[@]}" --most 5
    meaningless 'the end of the flags twice' -- -- "${SIX[@]}"
    meaningless 'a name that is not UTF-8' "${SIX[@]::5}" $'B\xff'
    meaningful 0 "${SIX[@]}"
    meaningful 0 -- "${SIX[@]}"
    meaningful 0 "${SIX[@]::3}" -- "${SIX[@]:3}"
    meaningful 0 "${SIX[@]}" --
    meaningful 0 --most 2 "${SIX[@]}"
    meaningful 7 --most 1 "${SIX[@]}"
    meaningful 7 --most=1 "${SIX[@]}"
    meaningful 7 --most 0 -- "${SIX[@]}"
    meaningful 7 "${SIX[@]::4}" --most 1 "${SIX[@]:4}"
    meaningful 7 "${SIX[@]}" --most 1
    meaningful 7 "${SIX[@]}" --most=1 --

    begin 'changes: names that begin as flags'
    path=([schema]=--most [lensA]=5 [lensB]=--most=5 [archive]=--quiet [A]=- [B]=--)
    unchanged
    carry_out changes --
    ends 0 "${PRINTED[changes]}"
    finish
}

# --- Address books, as people meet them ---

# twenty TITLE: a table and cards of the same twenty people, some with an accent, and their archive
twenty() {
    local number name rows=$HEAD_A cards='' card
    begin "changes: $1"
    for number in {11..30}; do
        name=$JOINED$number
        [[ $number -lt 28 ]] && name=P$number
        rows+=$name,$number,,$'\n'
        vcard card "FN:$name" "TEL:$number"
        cards+=$card
    done
    book_schema=$CARDS book_lens_a=$PLAIN_TITLES book_lens_b=$CARD_LENS tables . absent "$rows" "$cards"
    sync
    looks 0 agreed
}

# signs SIDE SIGN NAME..: the lines of these entries
signs() {
    printf '/"%s"\n' "${@:3}" | sed "s/^/$1 $2 /"
}

books_of_people() {
    twenty 'an export that broke off behind its tenth card'
    head -n "$((10 * 5))" B >../cut && cp ../cut B
    looks 0 "$(signs A - P{21..27} "$JOINED"{28..30})" "$(numbers A 0 10 20 0 10 0)" agreed
    carry_out changes --most 5
    [[ $status == 7 ]] || fault "status $status and not 7"
    finish

    twenty 'an export that broke off inside the last column'
    printf '1990-02-03\n' >../day
    head -c -1 A >../cut && { cat ../cut ../day; } >A
    sync
    head -c -3 A >../cut && cp ../cut A
    looks 0 "B + /\"${JOINED}30\"/\"*h\"/\"BDAY\"/\"1990-02-\"" "B - /\"${JOINED}30\"/\"*h\"/\"BDAY\"/\"19900203\"" \
        "$(numbers B 1 1 20 0 0 1)" agreed
    finish

    twenty 'a table that was saved with its accents apart'
    sed "s/$JOINED/$APART/" A >../apart && cp ../apart A
    looks 0 "$(signs B + "$APART"{28..30})" "$(signs B - "$JOINED"{28..30})" \
        "$(printf "alike A /\"$APART%d\" B /\"$JOINED%d\"\n" 28 28 29 29 30 30)" "$(numbers B 3 3 20 3 3 0)" agreed
    finish

    twenty 'an archive whose name is misspelled'
    sed -i /P11/d A
    looks 0 'B - /"P11"' "$(numbers B 0 1 20 0 1 0)" agreed
    path[archive]=archiv
    looks 0 'first run' 'A + /"P11"' "$(numbers A 1 0 19 1 0 0)" agreed
    finish

    twenty 'a book that is empty'
    : >B
    looks 0 "$(signs A - P{11..27} "$JOINED"{28..30})" "$(numbers A 0 20 20 0 20 0)" agreed
    carry_out changes --most 19
    [[ $status == 7 ]] || fault "status $status and not 7"
    finish

    twenty 'a table that is empty'
    printf %s "$HEAD_A" >A
    looks 0 "$(signs B - P{11..27} "$JOINED"{28..30})" "$(numbers B 0 20 20 0 20 0)" agreed
    finish

    twenty 'a name that is another one in one file, and then in both'
    sed -i s/P11/Q11/ A
    looks 0 'B - /"P11"' 'B + /"Q11"' "$(numbers B 1 1 20 1 1 0)" agreed
    sed -i s/P11/Q11/ B
    looks 0 agreed
    finish
}

# --- docs/GUIDE.md ---

# guide_block LINE: the block of the guide that begins with this line
guide_block() {
    awk -v first="$1" '
        inside && /^```$/ { exit }
        fence && $0 == first { inside = 1 }
        { fence = /^```/ }
        inside
    ' "$BOOK_GUIDE"
}

# kept STATUS LINE..: what the script of the guide prints, in the folder that it names
kept() {
    HOME=$PWD PATH=$scratch/case/bin:$PATH bash ../keep >../out 2>../err
    status=$?
    cp -r 'my contacts' ../want
    ends "$1" "$(printf '%s\n' "${@:2}")"
}

the_guide() {
    local example folder='my contacts' old
    example=$(guide_block 'A + /"Cy Oz"/"*h"/"EMAIL"/"cy@work.example"')
    begin 'changes: the example of the guide'
    cp "$top"/examples/first/before/* .
    path=([schema]=schema [lensA]=table.lens [lensB]=cards.lens [archive]=archive [A]=contacts.csv [B]=contacts.vcf)
    looks 0 "$example"
    finish

    begin 'changes: the script of the guide'
    guide_block '#!/usr/bin/env bash' | sed 's/--most 5/--most 1/' >../keep
    mkdir ../bin "$folder"
    ln -s "$program" ../bin/harmony
    ln -s "$changes" ../bin/harmony-changes
    cp "$top"/examples/first/before/* "$folder"
    mv "$folder/contacts.csv" "$folder/my contacts.csv"
    mv "$folder/archive" ../archive
    kept 7 'There is no archive, so nothing was done.'
    mv ../archive "$folder"
    kept 0 "$example" agreed
    for old in archive:archive A:contacts.csv B:contacts.vcf; do
        cmp -s "$folder"/copies/2*/"${old%:*}" "$top/examples/first/before/${old#*:}" || fault "the copy of ${old#*:}"
    done
    cmp -s "$folder/my contacts.csv" "$top/examples/first/after/contacts.csv" || fault 'nothing was written'
    # Of more than ten copies the oldest go.
    mkdir "$folder"/copies/2{001..012}
    rm -r "$folder"/copies/2*-* ../want/*
    kept 0 agreed agreed
    [[ $(cd "$folder/copies" && echo 20*) == "$(echo 20{04..12}) "20*-* ]] || fault "copies: $(ls "$folder/copies")"
    # Nothing is written where too much would be deleted.
    rm -r "$folder"/copies ../want/*
    head -n 2 "$folder/my contacts.csv" >../cut && cp ../cut "$folder/my contacts.csv"
    kept 7 'B - /"Bob Ray"' 'B - /"Cy Oz"' "$(numbers B 0 2 3 0 2 0)" agreed 'Nothing was done: status 7.'
    [[ ! -e $folder/copies ]] || fault 'there is a copy'
    finish
}

# --- All of them ---

made_up_changes() {
    begin 'changes: made-up files'
    python3 -B "$top/tests/random/changes.py" "$program" "$changes" 200 1 >../made-up 2>&1 ||
        fault "$(head -c 1000 ../made-up)"
    finish
}

launcher_of_changes() {
    begin 'changes: the launcher'
    unchanged
    ln -s "$top/harmony-changes" ../link
    ../link "${SIX[@]}" >../out 2>../err
    status=$?
    ends 0 "${PRINTED[changes]}"
    finish
}

if [[ -n $changes ]]; then
    lines_over_trees
    conflicts_over_trees
    alike_over_trees
    braked 'of A' '{"a","b","c","d"}' '{"a","b","c","d"}' '{"d"}' 3 0
    braked 'of B' '{"a","b","c","d"}' '{"d"}' '{"a","b","c","d"}' 3 0
    braked 'of the side that has more' '{"a","b","c","d"}' '{"a","d"}' '{"b","c","d"}' 2 0
    braked 'with conflicts' '{"a":{"1"},"b","c"}' '{"a":{"2"}}' '{"b","c"}' 2 1
    braked 'of entries, and nothing below them' '{"a":{"1","2"},"b":{"3"}}' '{"a","b"}' '{"a":{"1","2"},"b":{"3"}}' 0 0
    braked 'of none' "$OLD" "$OLD" "$OLD" 0 0
    words_of_changes
    books_of_people
    the_guide
    if command -v python3 >/dev/null; then
        made_up_changes
    else
        skip 'made-up files of harmony-changes' 'python3 is missing'
    fi
    if [[ -z ${HARMONY:-}${HARMONY_CHANGES:-} ]]; then
        launcher_of_changes
    else
        skip 'the launcher of harmony-changes' 'another program is named'
    fi
else
    skip 'what harmony-changes tells' 'there is no such program'
fi

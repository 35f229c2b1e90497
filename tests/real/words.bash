# shellcheck shell=bash
# The words of a run, and the names of its files.

readonly USAGE='usage: harmony [--quiet] sync|plan SCHEMA LENS_A LENS_B ARCHIVE A B, check LENS, view LENS FILE, gen N'

# same_names SLOT SLOT WORD..: names of which these two are the first that are equal and may not be, also for a plan
same_names() {
    local name
    for name in sync plan; do
        begin "equal names: $name ${*:3}"
        no_change
        as_planned "${@:3}"
        run $name "${@:3}" >../out
        ends 3 "harmony: SameName $1 $2"
        finish
    done
}

# no_meaning TITLE WORD..: words without a meaning
no_meaning() {
    begin "$1"
    no_change
    run "${@:2}" >../out
    ends 2 "$USAGE"
    finish
}

# a_sync WORD..: words that ask for a synchronisation of the six files
a_sync() {
    begin "words: $*"
    both_change
    run "$@" >../out
    ends 0 agreed
    finish
}

# a_plan WORD..: words that ask for its plan
a_plan() {
    begin "words: $*"
    files "$OLD" "$NEW" "$OTHER" "$OLD" "$NEW" "$OTHER"
    run "$@" >../out
    ends 0 agreed
    finish
}

# a_quiet_sync WORD..: words of which one is the flag, so that no single conflict is told
a_quiet_sync() {
    begin "words: $*"
    files "$OLD" "$KEPT" "$GONE" "$AT_OLD" "$KEPT" "$GONE"
    run "$@" >../out
    ends 1 'conflicts 1'
    finish
}

# shows_file NAME WORD..: words that ask for a view of the file of this name
shows_file() {
    begin "words: ${*:2}"
    make "$1" "$NEW"
    make lensA "$EVERY_LENS"
    cp ./* ../want
    run "${@:2}" >../out
    ends 0 "$NEW"
    finish
}

# read_twice SCHEMA LENS_A LENS_B, STATUS LINE: of the files that are only read some are one, which no name forbids
read_twice() {
    begin "read twice: $1 $2 $3"
    if [[ $4 == 0 ]]; then both_change; else no_change; fi
    run sync "${@:1:3}" archive A B >../out
    ends "$4" "$5"
    finish
}

# named SCHEMA LENS_A LENS_B ARCHIVE A B: files of these names, which may stand in folders
named() {
    begin "names $*"
    path=([schema]=$1 [lensA]=$2 [lensB]=$3 [archive]=$4 [A]=$5 [B]=$6)
    for name in "$@"; do
        [[ $name != */* ]] || mkdir -p "${name%/*}" "../want/${name%/*}"
    done
    both_change
    sync
    ends 0 agreed
    finish
}

readonly SIX=(schema lensA lensB archive A B)

no_meaning 'no words'
no_meaning 'another command' merge "${SIX[@]}"
no_meaning 'a command with a capital' Sync "${SIX[@]}"
no_meaning 'too few words' sync lensA lensB archive A B
no_meaning 'no lens files' sync schema archive A B
no_meaning 'too many words' sync "${SIX[@]}" C
no_meaning 'a flag as command' --help
no_meaning 'another flag before the names' sync --quite "${SIX[@]}"
no_meaning 'a part of the flag' --quie sync "${SIX[@]}"
no_meaning 'the flag with a text' --quiet=yes sync "${SIX[@]}"
no_meaning 'the flag by a letter' -q sync "${SIX[@]}"
no_meaning 'the flag twice' --quiet sync --quiet "${SIX[@]}"
no_meaning 'the flag alone' --quiet
no_meaning 'the end of the flags alone' --
no_meaning 'the end of the flags twice' -- -- sync "${SIX[@]}"
no_meaning 'the flag behind the end of the flags' -- --quiet sync "${SIX[@]}"
no_meaning 'an empty word in front' '' sync "${SIX[@]}"
no_meaning 'five files of a plan' plan schema lensA lensB archive A
no_meaning 'seven files of a plan' plan "${SIX[@]}" C
no_meaning 'no file to be checked' check
no_meaning 'two files to be checked' check lensA lensB
no_meaning 'one file to be viewed' view lensA
no_meaning 'three files to be viewed' view lensA A B
no_meaning 'no number' gen
no_meaning 'an empty number' gen ''
no_meaning 'a number too large' gen 50001
no_meaning 'a number with a space' gen ' 1'
no_meaning 'two numbers' gen 1 2
no_meaning 'a flag as schema' sync -schema lensA lensB archive A B
no_meaning 'a flag as lens file of A' sync schema -lensA lensB archive A B
no_meaning 'a flag as lens file of B' sync schema lensA --lensB archive A B
no_meaning 'a flag as archive' sync schema lensA lensB -archive A B
no_meaning 'a flag as A' sync schema lensA lensB archive -A B
no_meaning 'a flag as B' sync schema lensA lensB archive A -B
no_meaning 'equal names, and too many words' sync A A A A A A A
no_meaning 'a command that is not UTF-8' $'sync\xff' "${SIX[@]}"
no_meaning 'a schema that is not UTF-8' sync $'schema\xff' lensA lensB archive A B
no_meaning 'a lens file of A that is not UTF-8' sync schema $'\xc3(' lensB archive A B
no_meaning 'a lens file of B that is not UTF-8' sync schema lensA $'lens\xffB' archive A B
no_meaning 'an archive that is not UTF-8' sync schema lensA lensB $'\xffarchive' A B
no_meaning 'A that is not UTF-8' sync schema lensA lensB archive $'\xc3' B
no_meaning 'B that is not UTF-8' sync schema lensA lensB archive A $'B\xff'
no_meaning 'a further word that is not UTF-8' sync "${SIX[@]}" $'\xc3'
no_meaning 'a flag that is not UTF-8' $'--\xff' sync "${SIX[@]}"
no_meaning 'a name that is not UTF-8, behind the end of the flags' view -- lensA $'\xff'

# The flag stands anywhere in front of `--`, which only ends the flags.
a_sync sync "${SIX[@]}"
a_sync -- sync "${SIX[@]}"
a_sync sync -- "${SIX[@]}"
a_sync sync "${SIX[@]}" --
a_sync --quiet sync "${SIX[@]}"
a_sync --quiet -- sync "${SIX[@]}"
a_plan plan "${SIX[@]}"
a_plan plan "${SIX[@]}" --quiet
a_plan --quiet -- plan "${SIX[@]}"
a_quiet_sync --quiet sync "${SIX[@]}"
a_quiet_sync sync --quiet "${SIX[@]}"
a_quiet_sync sync schema lensA lensB --quiet archive A B
a_quiet_sync sync "${SIX[@]}" --quiet
a_quiet_sync sync "${SIX[@]}" --quiet --
a_quiet_sync --quiet -- sync "${SIX[@]}"

# Behind it each word is one, however it begins. A word `-` is one in front of it too.
shows_file - view lensA -
shows_file - view -- lensA -
shows_file -x view -- lensA -x
shows_file --quiet view lensA -- --quiet
shows_file --quiet --quiet view lensA -- --quiet
shows_file -- view lensA -- --
shows_file -- -- view lensA --

# A file that is written has its name alone.
same_names schema archive archive lensA lensB archive A B
same_names schema A A lensA lensB archive A B
same_names schema B B lensA lensB archive A B
same_names lensA archive schema archive lensB archive A B
same_names lensA A schema A lensB archive A B
same_names lensA B schema B lensB archive A B
same_names lensB archive schema lensA archive archive A B
same_names lensB A schema lensA A archive A B
same_names lensB B schema lensA B archive A B
same_names archive A schema lensA lensB A A B
same_names archive B schema lensA lensB B A B
same_names A B schema lensA lensB archive A A
same_names schema archive A A A A A A
same_names schema A A A A archive A B
same_names schema B schema schema schema A A schema
same_names lensA A schema lensA lensA archive lensA lensA
same_names A B nothing nowhere nowhere none nobody nobody

read_twice schema lensA lensA 0 agreed
read_twice schema lensB lensB 0 agreed
read_twice schema schema lensB 3 'harmony: BadLens lensA 1'
read_twice schema lensA schema 3 'harmony: BadLens lensB 1'
read_twice schema schema schema 3 'harmony: BadLens lensA 1'
read_twice lensA lensA lensA 3 'harmony: BadSchema 1'

# Each slot with each kind of name: with spaces, with quotes, with a line feed, with - at its beginning, with what a
# shell would take for something else, with other than ASCII, and in folders whose names are such.
named 'the schema' 'lens A' ' lens  B' ' archive' 'left ' ' '
named '"schema"' 'le"ns' '"B' '"' 'le"ft' '"right'
named "'schema'" "len's" "B'" "'" "le'ft" "'right"
named $'the\nschema' $'lens\nA' $'B\n\n' $'\narchive' $'left\n' $'\n'
named ./-schema ./-lens ./--quiet ./--archive ./-- ./-
named schema lensA lensB archive A -
named schema lensA lensB - A B
named - lensA lensB archive A B
# shellcheck disable=SC2016 # These are names as they stand.
named '`schema`' '$(lens)' ';' '$HOME' '*' '?'
named '|' '<' '&' '#' '~' '\'
named $'tab\t' 'Linse' $'\x01' 'Adreßbuch' 'ä' '名前'
named './the folder/schema' lenses/A './lenses/the B' $'two\nlines/archive' "\"it's\"/left" folder/../-/right

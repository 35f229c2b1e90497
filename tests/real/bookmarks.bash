# shellcheck shell=bash
# Files of bookmarks as Chrome keeps them: compact JSON without a line feed, beside the text of a tree.

readonly MARKS_NODES=$'node Top\n  edge bar Folder\n  edge other Folder\n  shape bar other
node Folder\n  other clean Items\n  shape + 0..
node Items\n  edge *h Item\n  edge *t More\n  shape *h *t
node More\n  edge *h Item\n  edge *t More\n  shape\n  shape *h *t
node Item\n  edge folder Folder\n  edge url Link\n  shape folder\n  shape url
node Link\n  other clean Empty\n  shape + 1..1'
readonly MARKS=$'harmony schema 1\nroot Top\n'$MARKS_NODES
readonly CHROME_LENS=$'harmony lens 1\nformat chrome\nmain = id'
readonly MARKS_LENS=$'harmony lens 1\nformat tree root=Top\n'$MARKS_NODES$'\nmain = id'

# bookmarks TITLE, archive A B before, STATUS LINES, archive A B afterwards: A is of Chrome, and B the text of a tree
bookmarks() {
    begin "bookmarks: $1"
    files "$2" empty "$4" "$7" empty "$9"
    printf %s "$3" >A
    printf %s "$8" >../want/A
    with schema "$MARKS"
    with lensA "$CHROME_LENS"
    with lensB "$MARKS_LENS"
    sync
    ends "$5" "$6"
    finish
}

# seen TITLE A STATUS TEXT: what `view` prints of a file
seen() {
    begin "bookmarks: view, $1"
    make lensA "$CHROME_LENS"
    printf %s "$2" >A
    cp ./* ../want
    run view lensA A >../out
    ends "$3" "$4"
    finish
}

# marks VARIABLE BAR OTHER: a file with these nodes in its two folders
marks() {
    printf -v "$1" '{"roots":{"bookmark_bar":{"children":[%s],"name":"b","type":"folder"},"other":{"children":[%s],"name":"o","type":"folder"}}}' \
        "$2" "$3"
}

# link VARIABLE NAME ADDRESS: a link without other members
link() {
    printf -v "$1" '{"name":"%s","type":"url","url":"%s"}' "$2" "$3"
}

# nested VARIABLE COUNT: so many folders within one another
nested() {
    local begin end
    printf -v begin '{"children":[%.0s' $(seq "$2")
    printf -v end '],"name":"f","type":"folder"}%.0s' $(seq "$2")
    printf -v "$1" '%s%s' "$begin" "$end"
}

# --- What a file becomes ---

readonly MOBILE='"synced":{"children":[{"id":"9","name":"m","type":"url","url":"https://m.example/"}],"id":"3","name":"Mobile bookmarks","type":"folder"}'
readonly FIRST='{"id":"5","name":"","type":"url","url":"https://a.example/?x=1&y=2"}'
readonly NEWS=',{"children":[{"name":"N","type":"url","url":"https://n.example/"}],"name":"News","type":"folder"}'
readonly BEGINS='{"checksum":"c0","roots":{"bookmark_bar":{"children":['
readonly ENDS='],"id":"1","name":"Bookmarks bar","type":"folder"},"other":{"children":[],"id":"2","name":"Other bookmarks","type":"folder"},'$MOBILE'},"version":1}'
readonly SMALL='{"bar":{"":{"*h":{"url":{"https://a.example/?x=1&y=2"}},"*t"}},"other"}'
readonly LARGE='{"bar":{"":{"*h":{"url":{"https://a.example/?x=1&y=2"}},"*t"},"News":{"*h":{"folder":{"N":{"*h":{"url":{"https://n.example/"}},"*t"}}},"*t"}},"other"}'

bookmarks 'a folder comes' "$SMALL" "$BEGINS$FIRST$ENDS" "$LARGE" 0 agreed "$LARGE" "$BEGINS$FIRST$NEWS$ENDS" "$LARGE"
bookmarks 'a folder goes' "$LARGE" "$BEGINS$FIRST$ENDS" "$LARGE" 0 agreed "$SMALL" "$BEGINS$FIRST$ENDS" "$SMALL"
bookmarks 'an address, by hand' "$SMALL" "$BEGINS$FIRST$ENDS" '{"bar":{"":{"*h":{"url":{"https://b.example/"}},"*t"}},"other"}' \
    0 agreed '{"bar":{"":{"*h":{"url":{"https://b.example/"}},"*t"}},"other"}' \
    "$BEGINS"'{"id":"5","name":"","type":"url","url":"https://b.example/"}'"$ENDS" \
    '{"bar":{"":{"*h":{"url":{"https://b.example/"}},"*t"}},"other"}'
bookmarks 'a link becomes a folder' "$SMALL" "$BEGINS$FIRST$ENDS" '{"bar":{"":{"*h":{"folder"},"*t"}},"other"}' \
    0 agreed '{"bar":{"":{"*h":{"folder"},"*t"}},"other"}' "$BEGINS"'{"children":[],"name":"","type":"folder"}'"$ENDS" \
    '{"bar":{"":{"*h":{"folder"},"*t"}},"other"}'

# A file whose tree stays keeps its bytes, however it is laid out; the members of one that changes rise.
spaced='{"version": 1, "roots": {"other": {"type": "folder", "name": "o", "children": []},
 "bookmark_bar": {"type": "folder", "name": "b", "children": [{"url": "u", "type": "url", "name": "a\u00e4"}]}}}'
bookmarks 'it stays' '{"bar":{"aä":{"*h":{"url":{"u"}},"*t"}},"other"}' "$spaced" '{"bar":{"aä":{"*h":{"url":{"u"}},"*t"}},"other"}' \
    0 agreed '{"bar":{"aä":{"*h":{"url":{"u"}},"*t"}},"other"}' "$spaced" '{"bar":{"aä":{"*h":{"url":{"u"}},"*t"}},"other"}'
bookmarks 'it is laid out anew' '{"bar":{"aä":{"*h":{"url":{"u"}},"*t"}},"other"}' "$spaced" '{"bar","other"}' \
    0 agreed '{"bar","other"}' \
    '{"roots":{"bookmark_bar":{"children":[],"name":"b","type":"folder"},"other":{"children":[],"name":"o","type":"folder"}},"version":1}' \
    '{"bar","other"}'

# Links of one name are told apart by their places.
link one a u1
link two a u2
link three a u3
marks twice "$one,$two" ''
marks thrice "$one,$two,$three" ''
bookmarks 'links of one name' '{"bar":{"a":{"*h":{"url":{"u1"}},"*t":{"*h":{"url":{"u2"}},"*t"}}},"other"}' "$twice" \
    '{"bar":{"a":{"*h":{"url":{"u1"}},"*t":{"*h":{"url":{"u2"}},"*t":{"*h":{"url":{"u3"}},"*t"}}}},"other"}' 0 agreed \
    '{"bar":{"a":{"*h":{"url":{"u1"}},"*t":{"*h":{"url":{"u2"}},"*t":{"*h":{"url":{"u3"}},"*t"}}}},"other"}' "$thrice" \
    '{"bar":{"a":{"*h":{"url":{"u1"}},"*t":{"*h":{"url":{"u2"}},"*t":{"*h":{"url":{"u3"}},"*t"}}}},"other"}'

# --- Which files are refused ---

marks empty_marks '' ''
seen 'an empty file' "$empty_marks" 0 '{"bar","other"}'
nested fifty 50
marks deep "$fifty" ''
seen 'fifty folders' "$deep" 0 "{\"bar\":$(printf '{"f":{"*h":{"folder":%.0s' $(seq 49))"'{"f":{"*h":{"folder"},"*t"}}'"$(printf '},"*t"}}%.0s' $(seq 49)),\"other\"}"
nested more 51
marks deeper "$more" ''
seen 'one more' "$deeper" 3 'harmony: BadReplica A TooDeep 51'

# bad_item NUMBER TEXT: a file that is refused for the node of this number, or for itself
bad_item() {
    seen "${2:0:60}" "$2" 3 "harmony: BadReplica A BadItem $1"
}

bad_item 0 ''
bad_item 0 '[]'
bad_item 0 '{"roots":{"bookmark_bar":{"children":[],"name":"b","type":"folder"}}}'
bad_item 0 "${empty_marks% *} x"
bad_item 0 "${empty_marks/\"b\"/1.5}"
bad_item 0 "${empty_marks/\"b\"/-0}"
bad_item 0 "${empty_marks/\"b\"/18446744073709551616}"
bad_item 0 "${empty_marks/\"b\"/\"\\ud800\"}"
bad_item 1 "${empty_marks/\"b\"/null}"
bad_item 1 "${empty_marks/folder/url}"
bad_item 2 "${empty_marks/\"o\"/7}"
marks bad "$one,[],$two" ''
bad_item 3 "$bad"
marks bad "{\"children\":[$one,{\"children\":[7],\"name\":\"d\",\"type\":\"folder\"}],\"name\":\"c\",\"type\":\"folder\"}" ''
bad_item 5 "$bad"
marks bad "$one" "$two,{\"name\":\"x\",\"type\":\"url\"}"
bad_item 5 "$bad"
seen 'bytes that are no text' $'{"\xff' 3 'harmony: BadReplica A NotUtf8 2'

begin 'bookmarks: a tree of too many folders'
tree="{\"bar\":$(printf '{"f":{"*h":{"folder":%.0s' $(seq 50))"'{"f":{"*h":{"folder"},"*t"}}'"$(printf '},"*t"}}%.0s' $(seq 50)),\"other\"}"
files absent "$tree" empty absent "$tree" empty
printf %s "$empty_marks" >B
cp B ../want
with schema "$MARKS"
with lensA "$MARKS_LENS"
with lensB "$CHROME_LENS"
run sync schema lensA lensB archive A B >../out
ends 3 'harmony: Unwritable B 51'
finish

# What is written is read by another reader of JSON, which sees the same links.
begin 'bookmarks: another reader'
make lensA "$CHROME_LENS"
make lensB "$MARKS_LENS"
make schema "$MARKS"
printf %s "$BEGINS$FIRST$ENDS" >A
make B "$LARGE"
make archive "$SMALL"
run sync schema lensA lensB archive A B >../out
[[ $status == 0 ]] || fault "status $status"
python3 - >../out <<'PYTHON' || fault 'it is not read'
import json

def links(node):
    for child in node["children"]:
        if child["type"] == "folder":
            yield from links(child)
        else:
            yield child["name"], child["url"]

roots = json.load(open("A", encoding="utf-8"))["roots"]
print([*links(roots["bookmark_bar"]), *links(roots["other"])])
PYTHON
[[ $(<../out) == "[('', 'https://a.example/?x=1&y=2'), ('N', 'https://n.example/')]" ]] || fault "$(<../out)"
finish

# shellcheck shell=bash
# Files of bookmarks as browsers export them: HTML, beside Chrome's file and the text of a tree.

readonly EXPORTED_LENS=$'harmony lens 1\nformat netscape\nmain = id'
readonly DOCTYPE='<!DOCTYPE NETSCAPE-Bookmark-file-1>'
readonly TIDY=$'lens Tidy Folder Folder = map(list(acond(folder,folder,wmap(folder=call(Tidy)),id)))\nmain = wmap(bar=call(Tidy),other=call(Tidy))'

# exported TITLE, archive A B before, STATUS LINES, archive A B afterwards: A is exported, and B the text of a tree
exported() {
    begin "exported bookmarks: $1"
    files "$2" empty "$4" "$7" empty "$9"
    printf %s "$3" >A
    printf %s "$8" >../want/A
    with schema "$MARKS"
    with lensA "$EXPORTED_LENS"
    with lensB "$MARKS_LENS"
    sync
    ends "$5" "$6"
    finish
}

# shown TITLE A STATUS TEXT: what `view` prints of a file
shown() {
    begin "exported bookmarks: view, $1"
    make lensA "$EXPORTED_LENS"
    printf %s "$2" >A
    cp ./* ../want
    run view lensA A >../out
    ends "$3" "$4"
    finish
}

# --- Chrome's file on one side, and an exported one on the other ---

readonly TOOLBAR=$DOCTYPE$'\n<TITLE>Bookmarks</TITLE>\n<H1>Bookmarks</H1>\n<DL><p>
    <DT><H3 PERSONAL_TOOLBAR_FOLDER="true">Bookmarks bar</H3>
    <DL><p>
        <DT><A HREF="https://a.example/?x=1&amp;y=2" ADD_DATE="1"></A>\n'
readonly TOOLBAR_NEWS=$'        <DT><H3>News</H3>\n        <DL><p>\n            <DT><A HREF="https://n.example/">N</A>\n        </DL><p>\n'
readonly TOOLBAR_ENDS=$'    </DL><p>\n</DL><p>\n'

# both_ways LENS: of two files with this behind their format, a folder comes to one, and then goes from the other
both_ways() {
    begin "exported bookmarks: both ways, ${1%%$'\n'*}"
    files "$SMALL" empty empty "$LARGE" empty empty
    printf %s "$BEGINS$FIRST$ENDS" >A
    printf %s "$BEGINS$FIRST$NEWS$ENDS" >../want/A
    printf %s "$TOOLBAR$TOOLBAR_NEWS$TOOLBAR_ENDS" >B
    cp B ../want/B
    with schema "$MARKS"
    with lensA $'harmony lens 1\nformat chrome\n'"$1"
    with lensB $'harmony lens 1\nformat netscape\n'"$1"
    sync
    ends 0 agreed
    printf %s "$BEGINS$FIRST$ENDS" | tee A >../want/A
    printf %s "$TOOLBAR$TOOLBAR_ENDS" >../want/B
    make ../want/archive "$SMALL"
    sync
    ends 0 agreed
    finish
}

both_ways 'main = id'
both_ways "$MARKS_NODES"$'\n'"$TIDY"

# --- What a file shows ---

readonly LAID=$DOCTYPE$'
<!-- This is an automatically generated file. -->
<META HTTP-EQUIV="Content-Type" CONTENT="text/html; charset=UTF-8">
<TITLE>Bookmarks</TITLE>
<H1>Bookmarks Menu</H1>

<DL><p>
    <DT><A HREF="https://m.example/" ADD_DATE="1" ICON="data:image/png;base64,AA==" TAGS="x,y">M &amp; N</A>
    <DD>A note
    <HR>
    <DT><H3 ADD_DATE="1" PERSONAL_TOOLBAR_FOLDER="true">Bookmarks Toolbar</H3>
    <DD>Add bookmarks here
    <DL><p>
        <DT><A HREF="https://t.example/">T</A>
    </DL><p>
</DL>
'
readonly LAID_TREE='{"bar":{"T":{"*h":{"url":{"https://t.example/"}},"*t"}},"other":{"M & N":{"*h":{"url":{"https://m.example/"}},"*t"}}}'

shown 'with notes and a separator' "$LAID" 0 "$LAID_TREE"
shown 'an empty file' "$DOCTYPE<DL></DL>" 0 '{"bar","other"}'
shown 'in lower case, behind a byte-order mark' $'\xef\xbb\xbf \n<!doctype netscape-bookmark-file-1><dl\n><dt><a id=1 href=u >t</a></dl><p>' \
    0 '{"bar","other":{"t":{"*h":{"url":{"u"}},"*t"}}}'
shown 'the first toolbar is the bar' \
    "$DOCTYPE"'<DL><DT><H3>f</H3><DL><DT><H3 Personal_Toolbar_Folder=TRUE>in</H3><DL></DL></DL><DT><H3 PERSONAL_TOOLBAR_FOLDER="True">one</H3><DL><DT><A HREF="a">1</A></DL><DT><H3 PERSONAL_TOOLBAR_FOLDER="true">two</H3><DL></DL></DL>' \
    0 '{"bar":{"1":{"*h":{"url":{"a"}},"*t"}},"other":{"f":{"*h":{"folder":{"in":{"*h":{"folder"},"*t"}}},"*t"},"two":{"*h":{"folder"},"*t"}}}'
shown 'entities' "$DOCTYPE"'<DL><DT><A HREF="u?a&amp;b&amp;amp;&#39;">&lt;&#8364;&gt; &quot;&copy;&#0000065;&#x41;&amp</A></DL>' \
    0 $'{"bar","other":{"<\xe2\x82\xac> \\"&copy;A&#x41;&amp":{"*h":{"url":{"u?a&b&amp;\'"}},"*t"}}}'

# --- What a file becomes ---

readonly LAID_BEFORE='{"bar":{"T":{"*h":{"url":{"https://t.example/"}},"*t"}},"other":{"M & N":{"*h":{"url":{"https://m.example/"}},"*t"}}}'

exported 'it stays, however it is laid out' "$LAID_TREE" "${LAID//    /}" "$LAID_TREE" 0 agreed "$LAID_TREE" "${LAID//    /}" "$LAID_TREE"

tree=${LAID_TREE/'"https://m.example/"'/'"https://w.example/?a&b"'}
exported 'an address changes, and nothing else of its link' "$LAID_BEFORE" "$LAID" "$tree" 0 agreed "$tree" \
    "${LAID/'HREF="https://m.example/"'/'HREF="https://w.example/?a&amp;b"'}" "$tree"

tree='{"bar":{"T":{"*h":{"folder":{"U":{"*h":{"url":{"u"}},"*t"}}},"*t"}},"other"}'
exported 'a link goes, and its note; another becomes a folder' "$LAID_BEFORE" "$LAID" "$tree" 0 agreed "$tree" \
    "${LAID%%    <DT>*}"$'    <HR>
    <DT><H3 ADD_DATE="1" PERSONAL_TOOLBAR_FOLDER="true">Bookmarks Toolbar</H3>
    <DD>Add bookmarks here
    <DL><p>
        <DT><H3>T</H3>
        <DL><p>
            <DT><A HREF="u">U</A>
        </DL><p>
    </DL><p>
</DL>
' "$tree"

plain=$DOCTYPE$'\n<H1>Bookmarks</H1><DL>\n<DT><A HREF=old LAST="x">a</A><DD>  one\ntwo \n<HR CLASS=x>\n<DT><H3 FOLDED>f</H3><DL></DL>\n</DL>\n\n'
tree='{"bar":{"<b>":{"*h":{"url":{"\"q\""}},"*t"}},"other":{"a":{"*h":{"url":{"new"}},"*t":{"*h":{"url":{"2"}},"*t"}},"f":{"*h":{"url":{"g"}},"*t"}}}'
exported 'a bar comes first, and new entries stand behind all' '{"bar","other":{"a":{"*h":{"url":{"old"}},"*t"},"f":{"*h":{"folder"},"*t"}}}' "$plain" "$tree" \
    0 agreed "$tree" "$DOCTYPE"$'\n<H1>Bookmarks</H1><DL><p>
    <DT><H3 PERSONAL_TOOLBAR_FOLDER="true">Bookmarks bar</H3>
    <DL><p>
        <DT><A HREF="&quot;q&quot;">&lt;b&gt;</A>
    </DL><p>
    <DT><A HREF="new" LAST="x">a</A>
    <DD>  one\ntwo
    <HR CLASS=x>
    <DT><A HREF="g">f</A>
    <DT><A HREF="2">a</A>
</DL>\n\n' "$tree"

# --- Which files are refused ---

# misfit NUMBER TEXT: a file that is refused for the token of this number, or for itself
misfit() {
    shown "${2:35:60}" "$2" 3 "harmony: BadReplica A BadItem $1"
}

misfit 0 ''
misfit 0 "<DL></DL>"
misfit 0 "<!DOCTYPE html><DL></DL>"
misfit 0 "$DOCTYPE<DLX></DLX>"
misfit 0 "$DOCTYPE<H3>h</H3><DL></DL>"
misfit 2 "$DOCTYPE<DL>words</DL>"
misfit 2 "$DOCTYPE<DL>"
misfit 3 "$DOCTYPE<DL></DL>x"
misfit 3 "$DOCTYPE<DL></DL><p><p>"
misfit 3 "$DOCTYPE<DL><DT><A NAME=\"n\">t</A></DL>"
misfit 3 "$DOCTYPE<DL><DT><A HREF='u v'>t</A></DL>"
misfit 5 "$DOCTYPE<DL><DT><A HREF=\"u\">t<B>b</B></A></DL>"
misfit 6 "$DOCTYPE<DL><DT><H3>t</H3><DT><H3>u</H3></DL>"
misfit 2 "$DOCTYPE<DL><A HREF=\"u\">t</A></DL>"
shown 'bytes that are no text' "$DOCTYPE"$'<DL>\xff</DL>' 3 'harmony: BadReplica A NotUtf8 39'

# within VARIABLE COUNT: so many folders within one another, in the bar
within() {
    local begin end
    printf -v begin '<DT><H3>f</H3><DL>%.0s' $(seq "$2")
    printf -v end '</DL>%.0s' $(seq "$2")
    printf -v "$1" %s "$DOCTYPE<DL><DT><H3 PERSONAL_TOOLBAR_FOLDER=true>b</H3><DL>$begin$end</DL></DL>"
}

within fifty 50
shown 'fifty folders' "$fifty" 0 "{\"bar\":$(printf '{"f":{"*h":{"folder":%.0s' $(seq 49))"'{"f":{"*h":{"folder"},"*t"}}'"$(printf '},"*t"}}%.0s' $(seq 49)),\"other\"}"
within more 51
shown 'one more' "$more" 3 'harmony: BadReplica A TooDeep 51'

begin 'exported bookmarks: a tree of too many folders'
tree="{\"bar\",\"other\":$(printf '{"f":{"*h":{"folder":%.0s' $(seq 50))"'{"f":{"*h":{"folder"},"*t"}}'"$(printf '},"*t"}}%.0s' $(seq 50))}"
files absent "$tree" empty absent "$tree" empty
printf %s "$DOCTYPE<DL></DL>" >B
cp B ../want
with schema "$MARKS"
with lensA "$MARKS_LENS"
with lensB "$EXPORTED_LENS"
run sync schema lensA lensB archive A B >../out
ends 3 'harmony: Unwritable B 51'
finish

# What is written is read by another reader of HTML, which sees the same links.
begin 'exported bookmarks: another reader'
make lensA "$EXPORTED_LENS"
make lensB "$MARKS_LENS"
make schema "$MARKS"
printf %s "$plain" >A
make B '{"bar":{"<b>":{"*h":{"url":{"\"q\"&amp;"}},"*t"}},"other":{"a":{"*h":{"url":{"new"}},"*t"}}}'
make archive '{"bar","other":{"a":{"*h":{"url":{"old"}},"*t"},"f":{"*h":{"folder"},"*t"}}}'
run sync schema lensA lensB archive A B >../out
[[ $status == 0 ]] || fault "status $status"
python3 - >../out <<'PYTHON' || fault 'it is not read'
from html.parser import HTMLParser


class Links(HTMLParser):
    found, address = [], None

    def handle_starttag(self, tag, attributes):
        if tag == "a":
            self.address, self.title = dict(attributes)["href"], ""

    def handle_data(self, data):
        if self.address is not None:
            self.title += data

    def handle_endtag(self, tag):
        if tag == "a":
            self.found.append((self.title, self.address))
            self.address = None


links = Links()
links.feed(open("A", encoding="utf-8").read())
print(links.found)
PYTHON
[[ $(<../out) == "[('<b>', '\"q\"&amp;'), ('a', 'new')]" ]] || fault "$(<../out)"
finish

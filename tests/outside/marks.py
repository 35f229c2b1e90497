"""Files of bookmarks: the changes that are made in them, and how docs/FORMATS.md says that they are written anew."""
import html
import json
import re

SCHEMA = b"""harmony schema 1
root Top
node Top
  edge bar Folder
  edge other Folder
  shape bar other
node Folder
  other clean Items
  shape + 0..
node Items
  edge *h Item
  edge *t More
  shape *h *t
node More
  edge *h Item
  edge *t More
  shape
  shape *h *t
node Item
  edge folder Folder
  edge url Link
  shape folder
  shape url
node Link
  other clean Empty
  shape + 1..1
"""
WHITE = b" \t\n\r\f"


class Marks:
    """A change is the number of a link, in the order of the file, and the address that it gets; or none, and the
    address of a new link, which stands behind all others beside the bar."""

    schema = SCHEMA

    def __init__(self):
        self.kind = self.word
        self.lens = f"harmony lens 1\nformat {self.word}\nmain = id\n".encode()

    def changes(self, data):
        """A change for either side, of unlike links."""
        count = len(self.addresses(data))
        left = (0, "https://outside.example/left") if count else (None, "https://outside.example/left?a&b")
        right = (count - 1, "https://outside.example/right") if count > 1 else (None, "https://outside.example/right")
        return left, right

    def is_seen(self, change, gone, come):
        """Whether links of another reader went and came by this change alone."""
        return len(gone) <= (change[0] is not None) and [address for _, address in come] == [change[1]]


# --- Exported files ---


def symbols(data):
    """The tags and texts of a file behind its head: the name of a tag, in capitals, and what stands behind it; or a text."""
    for tag, text in re.findall(rb'<((?:[^">]|"[^"]*")*)>|([^<]+)', data):
        name = re.match(rb"[^ \t\n\r\f]*", tag).group()
        yield (name.upper(), tag[len(name):]) if not text else (None, text)


class Reader:
    """What stands in the outermost folder, entry by entry."""

    def __init__(self, data):
        self.found = list(symbols(data))

    def skip(self):
        while self.found[0][0] == b"P" or (self.found[0][0] is None and not self.found[0][1].strip(WHITE)):
            self.found.pop(0)

    def next(self):
        self.skip()
        return self.found.pop(0)

    def text(self):
        return self.found.pop(0)[1] if self.found[0][0] is None else b""

    def note(self):
        self.skip()
        if self.found[0][0] != b"DD":
            return None
        self.found.pop(0)
        self.skip()
        return self.text()

    def folder(self):
        assert self.next()[0] == b"DL"
        entries = []
        while (symbol := self.next())[0] != b"/DL":
            if symbol[0] == b"HR":
                entries.append({"kind": "HR", "attributes": symbol[1]})
                continue
            kind, attributes = self.next()
            entry = {"kind": kind.decode(), "attributes": attributes, "title": self.text()}
            self.found.pop(0)
            entry["note"] = self.note()
            if kind == b"H3":
                entry["inside"] = self.folder()
            entries.append(entry)
        return entries


def links(entries):
    for entry in entries:
        if entry["kind"] == "A":
            yield entry
        yield from links(entry.get("inside", []))


def lines(entries, level):
    for entry in entries:
        blank, kind = b"    " * level, entry["kind"].encode()
        if kind == b"HR":
            yield blank + b"<HR" + entry["attributes"] + b">\n"
            continue
        yield blank + b"<DT><" + kind + entry["attributes"] + b">" + entry["title"] + b"</" + kind + b">\n"
        if entry["note"] is not None:
            yield blank + b"<DD>" + entry["note"].rstrip(WHITE) + b"\n"
        if kind == b"H3":
            yield blank + b"<DL><p>\n"
            yield from lines(entry["inside"], level + 1)
            yield blank + b"</DL><p>\n"


ADDRESS = re.compile(rb'([ \t\n\r\f]HREF=)("[^"]*"|[^ \t\n\r\f">]*)', re.I)


def quoted(text):
    return b'"' + html.escape(text).encode() + b'"'


class Exported(Marks):
    word = "netscape"

    def cut(self, data):
        head = re.search(rb"<DL[> \t\n\r\f]", data, re.I).start()
        tail = len(re.search(rb"(?:<p>|[ \t\n\r\f])*$", data[head:], re.I).group())
        # The white space behind `</DL>` begins the tail.
        return data[:head], Reader(data[head:]).folder(), data[len(data) - tail:]

    def addresses(self, data):
        return [ADDRESS.search(link["attributes"]).group(2) for link in links(self.cut(data)[1])]

    def edited(self, data, change):
        number, address = change
        if number is None:
            at = data.lower().rindex(b"</dl")
            return data[:at] + b"<DT><A HREF=" + quoted(address) + b">Outside</A>\n" + data[at:]
        at = [found for found in re.finditer(rb"<A[ \t\n\r\f][^>]*>", data, re.I)][number]
        tag = ADDRESS.sub(lambda found: found.group(1) + quoted(address), at.group(), count=1)
        return data[: at.start()] + tag + data[at.end():]

    def written(self, data, change):
        head, entries, tail = self.cut(data)
        number, address = change
        if number is None:
            entries.append({"kind": "A", "attributes": b" HREF=" + quoted(address), "title": b"Outside", "note": None})
        else:
            link = list(links(entries))[number]
            link["attributes"] = ADDRESS.sub(lambda found: found.group(1) + quoted(address), link["attributes"], count=1)
        return head + b"<DL><p>\n" + b"".join(lines(entries, 1)) + b"</DL>" + tail


# --- Chrome's files ---


def nodes(node):
    for child in node.get("children", []):
        if child["type"] == "url":
            yield child
        yield from nodes(child)


class Kept(Marks):
    word = "chrome"

    def shown(self, data):
        document = json.loads(data)
        roots = document["roots"]
        return document, [*nodes(roots["bookmark_bar"]), *nodes(roots["other"])]

    def addresses(self, data):
        return [link["url"] for link in self.shown(data)[1]]

    def changed(self, data, change):
        document, found = self.shown(data)
        number, address = change
        if number is None:
            document["roots"]["other"]["children"].append({"name": "Outside", "type": "url", "url": address})
        else:
            found[number]["url"] = address
        return document

    def edited(self, data, change):
        return json.dumps(self.changed(data, change), indent=1, ensure_ascii=False).encode()

    def written(self, data, change):
        document = self.changed(data, change)
        return json.dumps(document, separators=(",", ":"), sort_keys=True, ensure_ascii=False).encode()

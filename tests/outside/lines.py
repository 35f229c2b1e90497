"""Files of vCards and of events: the changes that are made in them, and how docs/FORMATS.md says that they are written
anew."""
import re

BOOK = """harmony schema 1
root Book
node Book
  other filled Items
  shape + 0..
node Items
  edge *h Item
  edge *t More
  shape *h *t
node More
  edge *h Item
  edge *t More
  shape
  shape *h *t
node Item
%s  shape%s
node One
  other filled Empty
  shape + 1..1
node Some
  other filled Empty
  shape + 1..
"""


def schema_of(names):
    """The schema of items that show these names, each with the node below it."""
    edges = "".join(f"  edge {name} {node}\n" for name, node in names.items())
    return (BOOK % (edges, "".join([" ?", *(f" {name}" for name in names)] if names else ""))).encode()


CARDS = {"BDAY": "One", "EMAIL": "Some", "NOTE": "Some", "ROLE": "Some", "TEL": "Some", "TITLE": "Some"}
EVENTS = {"DESCRIPTION": "One", "DTEND": "One", "DTSTART": "One", "LOCATION": "One", "SUMMARY": "One"}
# Those of any text, which are changed here: another reader knows what a day or a time has to look like.
TEXTS = {"cards": ["NOTE", "TITLE", "ROLE", "EMAIL", "TEL"], "events": ["SUMMARY", "LOCATION", "DESCRIPTION"]}


def unfolded(data):
    """The lines that aren't empty, without their ends."""
    found = re.sub(rb"\r?\n[ \t]", b"", data).split(b"\n")
    found = [line.removesuffix(b"\r") for line in found[:-1]] + found[-1:]
    return [line for line in found if line]


def folded(line):
    """A line in pieces of 75 octets at most, between characters, with its end."""
    pieces, piece, most = [], b"", 75
    for character in line.decode():
        octets = character.encode()
        if len(piece) + len(octets) > most:
            pieces.append(piece)
            piece, most = b"", 74
        piece += octets
    return b"\r\n ".join([*pieces, piece]) + b"\r\n"


def parts(line):
    """The name of a content line and where its value begins."""
    name = re.match(rb'(?:[A-Za-z0-9-]+\.)?([A-Za-z0-9-]+)(?:;(?:"[^"]*"|[^":])*)?:', line)
    return name.group(1).decode().upper(), name.end()


def shown(value):
    """The text that a value shows."""
    text = re.sub(rb"\\([\\,;nN])", lambda sign: b"\n" if sign.group(1) in b"nN" else sign.group(1), value).decode()
    text = text.replace("\r\n", "\n").replace("\r", "\n")
    return re.sub("[\x00-\x08\x0b-\x1f\x7f]", "", text)


def escaped(text):
    return re.sub(r"([\\,;])", r"\\\1", text).replace("\n", "\\n").encode()


class Lines:
    """A change is the number of an item, a property, the text that it had, or none, and the one that it gets; or a new
    item, of this number behind all others, with its key, a property and a text."""

    def __init__(self, kind):
        names = CARDS if kind == "cards" else EVENTS
        self.kind = kind
        self.schema = schema_of(names)
        format_word = "vcard" if kind == "cards" else "icalendar"
        self.lens = f"harmony lens 1\nformat {format_word} show={','.join(names)}\nmain = id\n".encode()

    def items(self, found):
        """Where each item begins and ends."""
        depth, at, spans = 0, 0, []
        level, name = (1, "VCARD") if self.kind == "cards" else (2, "VEVENT")
        for number, line in enumerate(found):
            of, value = parts(line)
            if of == "BEGIN":
                depth += 1
                at = number if depth == level else at
            if of == "END":
                if depth == level and line[value:].decode().upper() == name:
                    spans.append((at, number))
                depth -= 1
        return spans

    def own(self, found, span):
        """The properties of an item itself: where each stands, its name, and the text that it shows."""
        depth, own = 0, []
        for number in range(span[0] + 1, span[1]):
            of, value = parts(found[number])
            depth += {"BEGIN": 1, "END": -1}.get(of, 0)
            if depth == 0 and of != "END":
                own.append((number, of, shown(found[number][value:])))
        return own

    def texts(self, found, span):
        """Properties of any text that an item shows, each with the first text, and those that it doesn't show."""
        of = {}
        for _, name, text in self.own(found, span):
            if name in TEXTS[self.kind] and text.strip(" "):
                of.setdefault(name, text)
        return of, [name for name in TEXTS[self.kind] if name not in of]

    def changes(self, data):
        """A change for either side. The two are in unlike items, or of unlike properties."""
        found = unfolded(data)
        spans = self.items(found)
        if not spans:
            return (0, "new", "outside-left", "Left"), (0, "new", "outside-right", "Right")
        has, lacks = self.texts(found, spans[0])
        name = next(iter(has), lacks[0] if lacks else None)
        left = (0, name, has.get(name), has.get(name, "") + " outside, left")
        last = len(spans) - 1
        has, lacks = self.texts(found, spans[last])
        name = [other for other in lacks + list(has) if other != name][0]
        return left, (last, name, has.get(name), has.get(name, "") + " outside; right")

    def with_line(self, found, change):
        """The lines of a side, once the change of the other has reached it."""
        number, name, old, new = change
        if name == "new":
            front = [b"BEGIN:VEVENT", b"UID:" + old.encode(), b"DTSTAMP:19700101T000000Z"]
            return found[:-1] + [*front, b"SUMMARY:" + new.encode(), b"END:VEVENT"] + found[-1:]
        span = self.items(found)[number]
        own = [(at, text) for at, of, text in self.own(found, span) if of == name]
        if self.kind == "cards":
            gone = {at for at, text in own if text == old}
            kept = [line for at, line in enumerate(found[: span[1]]) if at not in gone]
            return kept + [name.encode() + b":" + escaped(new)] + found[span[1] :]
        at = next((at for at, text in own if text == old), own[0][0] if own else span[1])
        front = found[at][: parts(found[at])[1]] if own else name.encode() + b":"
        return found[:at] + [front + escaped(new)] + found[at + bool(own) :]

    def edited(self, data, change):
        """The file with a change of its own, all other bytes as they are, but for a last line without its end."""
        number, name, old, new = change
        raw = re.findall(rb"(?:[^\n]|\r?\n[ \t])*\n", data if data.endswith(b"\n") else data + b"\n")
        full = [at for at, line in enumerate(raw) if unfolded(line)]
        found = unfolded(data)
        if name == "new":
            event = b"BEGIN:VEVENT\r\nUID:%s\r\nSUMMARY:%s\r\nEND:VEVENT\r\n" % (old.encode(), new.encode())
            at = full[-1]
            return b"".join(raw[:at]) + event + b"".join(raw[at:])
        span = self.items(found)[number]
        own = [at for at, of, text in self.own(found, span) if of == name and (old is None or text == old)]
        for at in own if self.kind == "cards" and old is not None else own[:1]:
            line = raw[full[at]]
            end = b"\r\n" if line.endswith(b"\r\n") else b"\n"
            raw[full[at]] = line[: len(line) - len(end)] + escaped(new[len(old or ""):]) + end
        if not own:
            raw.insert(full[span[1]], name.encode() + b":" + escaped(new) + b"\r\n")
        return b"".join(raw)

    def written(self, data, change):
        return b"".join(folded(line) for line in self.with_line(unfolded(data), change))

    def is_seen(self, change, gone, come):
        """Whether values of another reader went and came by this change alone."""
        name = change[1]
        if name == "new":
            return not gone and {"UID", "SUMMARY"} <= {of.upper() for of, _ in come}
        if len(come) != 1 or len(gone) > 1 or "outside" not in come[0][1]:
            return False
        return {of.upper() for of, _ in gone + come} == {name}

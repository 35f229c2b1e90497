"""Files of comma-separated values: the changes that are made in them, and how docs/FORMATS.md says that they are
written anew."""
import re

from lines import schema_of

MARK = b"\xef\xbb\xbf"


def records(data):
    """The records of a file without its mark: where each field stands, and what it holds."""
    found, record, at, size = [], [], 0, len(data)
    while at < size:
        if not record and data[at : at + 1] in (b"\r", b"\n"):
            at += 1
            continue
        begin, text = at, b""
        quoted = re.compile(rb'"((?:[^"]|"")*)(?:"|\Z)').match(data, at)
        if quoted:
            text, at = quoted.group(1).replace(b'""', b'"'), quoted.end()
        plain = re.compile(rb"[^,\r\n]*").match(data, at)
        text, at = text + plain.group(), plain.end()
        record.append((begin, at, text))
        if data[at : at + 1] == b"," and at + 1 == size:
            record.append((at + 1, at + 1, b""))
        if data[at : at + 1] != b"," or at + 1 == size:
            found.append(record)
            record = []
        at += 1
    return found


def cleaned(field):
    text = field.decode(errors="replace").replace("\r\n", "\n").replace("\r", "\n")
    return re.sub("[\x00-\x08\x0b-\x1f\x7f]", "", text)


def spelled(name):
    """A name as it stands in lens files and schemas."""
    text = name.replace("\\", "\\\\").replace('"', '\\"')
    return '"' + re.sub("[\x00-\x1f\x7f]", lambda sign: f"\\x{ord(sign.group()):02x}", text) + '"'


def field(text):
    return b'"' + text.replace(b'"', b'""') + b'"' if re.search(rb'[,"\r\n]', text) else text


def line(fields):
    return b'""\n' if fields == [b""] else b",".join(map(field, fields)) + b"\n"


class Table:
    """The first column has the keys, the second one text and the third some; where there are no such ones they are left
    out. A change is a text behind the one in the second column of the first record, or a new record."""

    kind = "records"

    def __init__(self, data):
        self.head = [text for _, _, text in (records(data.removeprefix(MARK)) or [[(0, 0, b"")]])[0]]
        names = list(dict.fromkeys(cleaned(text) for text in self.head))
        self.shown = {spelled(name): node for name, node in zip(names[1:3], ("One", "Some"))}
        options = [f"{word}={name}" for name, word in zip(self.shown, ("show", "many"))]
        self.places = [self.place(name) for name in names[1:3]]
        self.schema = schema_of(self.shown)
        options = " ".join([f"key={spelled(names[0])}", *options])
        self.lens = f"harmony lens 1\nformat csv {options}\nmain = id\n".encode()

    def place(self, name):
        return next(at for at, text in enumerate(self.head) if cleaned(text) == name)

    def changes(self, data):
        left = "text" if self.places and len(records(data.removeprefix(MARK))) > 1 else "left outside"
        return (left, "right outside")

    def new_record(self, key):
        fields = [b""] * len(self.head)
        fields[0] = key.encode()
        for at, text in zip(self.places, (b"one, two", b"p|q")):
            fields[at] = text
        return fields

    def edited(self, data, change):
        """The file with a change of its own, all other bytes as they are, but for a last line without its end."""
        if change == "text":
            front = MARK if data.startswith(MARK) else b""
            data = data.removeprefix(MARK)
            begin, end, text = records(data)[1][self.places[0]]
            return front + data[:begin] + field(text + b" outside") + data[end:]
        data = data if data.endswith((b"\n", b"\r")) else data + b"\n"
        return data + line(self.new_record(change))

    def written(self, data, change):
        front = MARK if data.startswith(MARK) else b""
        found = [[text for _, _, text in record] for record in records(data.removeprefix(MARK))]
        if change == "text":
            found[1][self.places[0]] = cleaned(found[1][self.places[0]]).encode() + b" outside"
        else:
            found.append(self.new_record(change))
        return front + b"".join(map(line, found))

    def is_seen(self, change, gone, come):
        return len(come) == 1 and len(gone) == (change == "text")

"""Compares what other programs read of the files that Harmony writes with what its archive says."""
import os
import random
import shutil
import subprocess
import sys
import tempfile

import icalendar
import vobject

program, examples, runs, seed = sys.argv[1], sys.argv[2], int(sys.argv[3]), int(sys.argv[4])
here = os.path.dirname(os.path.abspath(__file__))
random.seed(seed)
passed, failed = 0, 0

BOOK = """harmony schema 1
root Book
node Book
  other filled Cards
  shape + 0..
node Cards
  edge *h Card
  edge *t More
  shape *h *t
node More
  edge *h Card
  edge *t More
  shape
  shape *h *t
node Card
%snode One
  other filled Empty
  shape + 1..1
node Some
  other filled Empty
  shape + 1..
"""
CARD = "  edge BDAY One\n  edge EMAIL Some\n  edge NOTE Some\n  edge TEL Some\n  shape ? BDAY EMAIL NOTE TEL\n"
EVENT = "  edge DESCRIPTION One\n  edge LOCATION One\n  edge SUMMARY One\n  shape ? DESCRIPTION LOCATION SUMMARY\n"


# --- Trees as text ---


def read_tree(text):
    """The tree of a text, as a dictionary of dictionaries."""
    at = 0

    def name():
        nonlocal at
        at += 1
        found = []
        while text[at] != '"':
            if text[at] != "\\":
                found.append(text[at])
                at += 1
            elif text[at + 1] == "x":
                found.append(chr(int(text[at + 2 : at + 4], 16)))
                at += 4
            else:
                found.append(text[at + 1])
                at += 2
        at += 1
        return "".join(found)

    def tree():
        nonlocal at
        at += 1
        found = {}
        while text[at] != "}":
            if text[at] == ",":
                at += 1
            key = name()
            found[key] = {}
            if text[at] == ":":
                at += 1
                found[key] = tree()
        at += 1
        return found

    return tree()


def spelled(name):
    return '"' + "".join("\\" + c if c in '"\\' else "\\x%02x" % ord(c) if ord(c) < 32 or c == "\x7f" else c for c in name) + '"'


def write_tree(tree):
    edges = sorted(tree.items(), key=lambda edge: edge[0].encode())
    return "{" + ",".join(spelled(k) + (":" + write_tree(t) if t else "") for k, t in edges) + "}"


def items_of(tree):
    """The key of each item, with the texts that it shows below each name."""
    found = []
    for key, rest in tree.items():
        while rest:
            found.append((key, {name: sorted(texts) for name, texts in rest["*h"].items()}))
            rest = rest["*t"]
    return sorted(found, key=repr)


# --- What the others read ---


def gathered(values, key, one_line):
    """Items from their values, each with its number and property."""
    items = {}
    for number, name, value in values:
        items.setdefault(number, {}).setdefault(name, []).append(value)
    found = []
    for item in items.values():
        [of_key] = item.pop(key)
        found.append((of_key, {name: sorted({one_line(v) for v in texts if v.strip(" ")}) for name, texts in item.items()}))
    return sorted(((k, {n: t for n, t in shown.items() if t}) for k, shown in found), key=repr)


def by_perl(script, file):
    """What a reader in Perl prints, in which a line feed is the two characters that stand for it."""
    out = subprocess.run(["perl", os.path.join(here, script), file], check=True, capture_output=True).stdout.decode()
    return [line.split("\t", 2) for line in out.split("\n") if line]


def cards_by_python(file):
    with open(file, newline="", encoding="utf-8") as it:
        text = it.read()
    for number, card in enumerate(vobject.readComponents(text)):
        for name, lines in card.contents.items():
            for line in lines:
                if name.upper() in ("FN", "BDAY", "EMAIL", "NOTE", "TEL", "TITLE", "ROLE"):
                    yield number, name.upper(), line.value


def events_by_python(file):
    with open(file, "rb") as it:
        calendar = icalendar.Calendar.from_ical(it.read())
    for number, event in enumerate(calendar.walk("VEVENT")):
        for name in ("UID", "SUMMARY", "LOCATION", "DESCRIPTION"):
            if name in event:
                yield number, name, str(event[name])


def same(text):
    return text


def joined(text):
    return text.replace("\n", "\\n")


def check(title, shown, archive, names, readers):
    """Compares what some readers show of a file with what the archive says, in the properties that are shown. A file without
    items is left out, since not all of them read it."""
    global passed, failed
    wanted = items_of(read_tree(archive))
    if not wanted:
        return
    for reader, values, one_line in readers:
        want = [(k, {n: [one_line(t) for t in texts] for n, texts in item.items()}) for k, item in wanted]
        want = sorted(((one_line(k), {n: sorted(t) for n, t in item.items()}) for k, item in want), key=repr)
        try:
            found = gathered(values(shown), names, one_line)
        except Exception as error:  # a reader that stops has not read the file
            found = [("", repr(error))]
        kept = {name for _, item in want for name in item}
        found = [(one_line(k), {n: t for n, t in item.items() if n in kept} if isinstance(item, dict) else item) for k, item in found]
        if sorted(found, key=repr) == want:
            passed += 1
        else:
            failed += 1
            print(f"FAILED {title}: {reader}\n    shows {found}\n    and not {want}")


CARD_READERS = [("vobject", cards_by_python, same), ("Text::vCard", lambda file: by_perl("cards.pl", file), joined)]
EVENT_READERS = [("icalendar", events_by_python, same), ("Data::ICal", lambda file: by_perl("events.pl", file), joined)]


def run(folder, *words):
    """Runs the program, which has to agree."""
    out = subprocess.run([program, *words], cwd=folder, capture_output=True).stdout.decode()
    assert out == "agreed\n", (folder, out)


def slurp(*path):
    with open(os.path.join(*path), newline="", encoding="utf-8") as it:
        return it.read()


def spew(text, *path):
    with open(os.path.join(*path), "w", newline="", encoding="utf-8") as it:
        it.write(text)


# --- Random files ---

# A backslash stands before a letter alone: before another sign that is escaped these readers take it for an escape.
LETTERS = ["a", "b", "Z", " ", ",", ";", "\\a", ":", "\"", "é", "ß", "日", "😀", "|", "."]


def text(most=12, lines=False):
    letters = LETTERS + ["\n"] if lines else LETTERS
    found = "".join(random.choice(letters) for _ in range(random.randint(1, most)))
    return "x" + found + "x" if not lines or random.random() < 0.9 else "x" + found * 12 + "x"


def escaped(value):
    return value.replace("\\", "\\\\").replace(",", "\\,").replace(";", "\\;").replace("\n", "\\n")


def folded(line):
    found, piece = [], b""
    for c in line:
        if len(piece) + len(c.encode()) > 60:
            found.append(piece)
            piece = b""
        piece += c.encode()
    return b"\r\n ".join([*found, piece]).decode() + "\r\n"


def csv_field(value):
    return '"' + value.replace('"', '""') + '"'


def piece(value):
    return value.replace("\\", "\\\\").replace("|", "\\|")


def contact():
    shown = {"TEL": {text(8) for _ in range(random.randint(0, 2))}, "EMAIL": {text(8) for _ in range(random.randint(0, 2))}}
    shown["NOTE"] = {text(20, True) for _ in range(random.randint(0, 1))}
    shown["BDAY"] = {random.choice(["19900203", "--0203", "1990"])} if random.random() < 0.5 else set()
    return {name: texts for name, texts in shown.items() if texts}


def event():
    shown = {name: {text(20, name == "DESCRIPTION")} for name in ("SUMMARY", "LOCATION", "DESCRIPTION") if random.random() < 0.6}
    return shown


def changed(items, make):
    """Some items deleted, some changed, and some more."""
    items = {k: v for k, v in items.items() if random.random() > 0.2}
    items = {k: make() if random.random() < 0.3 else v for k, v in items.items()}
    return {**items, **{text(): make() for _ in range(random.randint(0, 2))}}


def table(items, key, show, many):
    lines = [",".join([key, *show, *many])]
    for k, shown in items.items():
        fields = [csv_field(k)] + [csv_field(next(iter(shown.get(n, {""})))) for n in show]
        lines.append(",".join(fields + [csv_field("|".join(piece(t) for t in shown.get(n, ()))) for n in many]))
    return "\n".join(lines) + "\n"


def cards(items):
    found = []
    for k, shown in items.items():
        lines = [f"FN:{escaped(k)}"] + [f"{random.choice(['', 'item1.'])}{n}{random.choice(['', ';X=1'])}:{escaped(t)}" for n, ts in shown.items() for t in ts]
        lines += random.sample(["N:a;b;;;", "X-OTHER:" + "y" * 100, "PHOTO:data:,"], random.randint(0, 3))
        found += ["BEGIN:VCARD", "VERSION:4.0", *lines, "END:VCARD"]
    return "".join(folded(line) for line in found)


def calendar(items):
    found = ["BEGIN:VCALENDAR", "VERSION:2.0", "PRODID:x"]
    for k, shown in items.items():
        lines = [f"UID:{escaped(k)}", "DTSTAMP:20260101T000000Z"] + [f"{n}:{escaped(t)}" for n, ts in shown.items() for t in ts]
        alarm = ["BEGIN:VALARM", "ACTION:DISPLAY", "DESCRIPTION:Soon", "TRIGGER:-PT5M", "END:VALARM"]
        found += ["BEGIN:VEVENT", *lines, *(alarm if random.random() < 0.3 else []), "END:VEVENT"]
    return "".join(folded(line) for line in [*found, "END:VCALENDAR"])


def archive_of(items):
    return write_tree({k: {"*h": {n: {t: {} for t in ts} for n, ts in shown.items()}, "*t": {}} for k, shown in items.items()}) + "\n"


def random_run(folder, number, of_cards):
    make = contact if of_cards else event
    show, many = (["BDAY"], ["EMAIL", "NOTE", "TEL"]) if of_cards else (["DESCRIPTION", "LOCATION", "SUMMARY"], [])
    key, write = ("FN", cards) if of_cards else ("UID", calendar)
    base = {text(): make() for _ in range(random.randint(0, 4))}
    left, right = (changed(base, make), base) if random.random() < 0.7 else (base, changed(base, make))
    spew(BOOK % (CARD if of_cards else EVENT), folder, "schema")
    options = " ".join(filter(None, [f"key={key}", f"show={','.join(show)}", many and f"many={','.join(many)}"]))
    spew(f"harmony lens 1\nformat csv {options}\nmain = id\n", folder, "l")
    names = ",".join(sorted(show + many))
    spew(f"harmony lens 1\nformat {'vcard' if of_cards else 'icalendar'} show={names}\nmain = id\n", folder, "m")
    spew(archive_of(base), folder, "o")
    spew(table(left, key, show, many), folder, "a")
    spew(write(right), folder, "b")
    run(folder, "sync", "schema", "l", "m", "o", "a", "b")
    title = f"random run {number} of {'cards' if of_cards else 'events'}"
    check(title, os.path.join(folder, "b"), slurp(folder, "o"), key, CARD_READERS if of_cards else EVENT_READERS)


with tempfile.TemporaryDirectory() as room:
    for name, file, key, readers in [("first", "contacts.vcf", "FN", CARD_READERS), ("events", "calendar.ics", "UID", EVENT_READERS)]:
        folder = os.path.join(room, name)
        shutil.copytree(os.path.join(examples, name, "before"), folder)
        run(folder, *slurp(examples, name, "words").split())
        check(name, os.path.join(folder, file), slurp(folder, "archive"), key, readers)
    for number in range(runs):
        folder = os.path.join(room, str(number))
        os.mkdir(folder)
        random_run(folder, number, number % 2 == 0)
print(f"{passed} passed, {failed} failed")
sys.exit(failed != 0)

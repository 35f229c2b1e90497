"""Tries files that others wrote: what the program says of each, and what becomes of it when two replicas of it are
brought together of which each has a change. What must come of it is what docs/FORMATS.md says."""
import csv
import hashlib
import html.parser
import io
import json
import os
import re
import shutil
import sqlite3
import subprocess
import sys
import tempfile

import icalendar
import vobject

import lines
import marks
import tables

program, folder, verdicts = sys.argv[1:4]
counts = {"passed": 0, "failed": 0, "skipped": 0}


def told(outcome, title, *more):
    counts[outcome] += 1
    if outcome != "passed":
        print(outcome.upper() if outcome == "failed" else outcome, title, end="\n    ")
        print(*more, sep="\n    ")


# --- The program ---


def write(room, name, data):
    with open(os.path.join(room, name), "wb") as it:
        it.write(data)


def slurp(room, name):
    with open(os.path.join(room, name), "rb") as it:
        return it.read()


def sync(room):
    """The line that the program prints, with both replicas afterwards."""
    words = ["sync", "schema", "lens", "lens", "archive", "A", "B"]
    out = subprocess.run([program, *words], cwd=room, capture_output=True, timeout=120, check=False).stdout
    return out.decode().rstrip("\n"), slurp(room, "A"), slurp(room, "B")


# --- One file ---


def unlike(slot, new, want):
    """Where the new file of a slot isn't as it must be, with what is there; nothing where it is."""
    at = len(os.path.commonprefix([new, want]))
    around = slice(max(0, at - 60), at + 60)
    return [] if new == want else [f"{slot} from byte {at}: {new[around]!r}", f"and not {want[around]!r}"]


def bring_together(form, data, room):
    """Two replicas, of which each has a change: what isn't as it must be, and each file before and after, with the
    change that came from the other side."""
    left, right = form.changes(data)
    mine, other = form.edited(data, left), form.edited(data, right)
    write(room, "A", mine)
    write(room, "B", other)
    said, new_mine, new_other = sync(room)
    wrong = [] if said == "agreed" else [f"says {said}"]
    wrong += unlike("A", new_mine, form.written(mine, right)) + unlike("B", new_other, form.written(other, left))
    if not wrong and sync(room) != ("agreed", new_mine, new_other):
        wrong.append("the next run changes something")
    return wrong, [(mine, new_mine, right), (other, new_other, left)]


def difference(before, after):
    """The values that are gone, and those that have come."""
    gone, come = list(before), []
    for value in after:
        if value in gone:
            gone.remove(value)
        else:
            come.append(value)
    return gone, come


def read_by_another(title, read, form, sides):
    """Another reader sees the change of the other side, and nothing else."""
    try:
        before = [read(old) for old, _, _ in sides]
    except Exception as error:  # it reads no such files, whoever wrote them
        told("skipped", title, f"it doesn't read the file: {error!r}"[:120])
        return
    for seen, (_, new, change) in zip(before, sides):
        try:
            gone, come = difference(seen, read(new))
        except Exception as error:
            told("failed", title, f"it doesn't read the new file: {error!r}"[:200])
            continue
        told("passed" if form.is_seen(change, gone, come) else "failed", title, f"{gone} became {come} by {change}")


def try_file(title, data, form, verdict):
    with tempfile.TemporaryDirectory() as room:
        write(room, "schema", form.schema)
        write(room, "lens", form.lens)
        write(room, "A", data)
        write(room, "B", data)
        said, mine, other = sync(room)
        want = "agreed" if verdict == "read" else f"harmony: BadReplica A {verdict}"
        told("passed" if said == want else "failed", title, f"says {said}", f"and not {want}")
        stays = mine == other == data
        told("passed" if stays else "failed", f"{title}: it stays", "a run of two equal files changes one")
        if not said == want == "agreed":
            return
        wrong, sides = bring_together(form, data, room)
        told("failed" if wrong else "passed", f"{title}: two changes", *wrong)
        for name, read in READERS[form.kind]:
            read_by_another(f"{title}: {name}", read, form, sides)


# --- What other readers see: of each value its name, and what it is ---


def values_of(part):
    """Those of a component, and of what is in it."""
    for name, found in sorted(part.contents.items()):
        for value in found:
            if isinstance(value, vobject.base.Component):
                yield from values_of(value)
            else:
                yield name, str(value.value)


def by_vobject(data):
    return [value for part in vobject.readComponents(data.decode()) for value in values_of(part)]


def by_icalendar(data):
    parts = icalendar.Calendar.from_ical(data).walk()
    found = [(name, value) for part in parts for name, value in part.property_items(recursive=False)]
    return [(name, str(value.to_ical() if hasattr(value, "to_ical") else value)) for name, value in found]


def by_csv(data):
    return [row for row in csv.reader(io.StringIO(data.decode("utf-8-sig"), newline="")) if row]


class Links(html.parser.HTMLParser):
    """The links of a page: the title of each, and its address."""

    def __init__(self):
        super().__init__()
        self.found, self.inside = [], False

    def handle_starttag(self, tag, attrs):
        if tag == "a":
            self.found.append(("", dict(attrs)["href"]))
            self.inside = True

    def handle_endtag(self, tag):
        self.inside = self.inside and tag != "a"

    def handle_data(self, data):
        if self.inside:
            self.found[-1] = (self.found[-1][0] + data, self.found[-1][1])


def by_html_parser(data):
    page = Links()
    page.feed(data.decode("utf-8-sig"))
    page.close()
    return page.found


def by_json(data):
    def of(node):
        here = [(node["name"], node["url"])] if node.get("type") == "url" else []
        return here + [link for child in node.get("children", []) for link in of(child)]

    return [link for root in json.loads(data)["roots"].values() if isinstance(root, dict) for link in of(root)]


def by_buku(data):
    """What it imports: links of one address are one."""
    with tempfile.TemporaryDirectory() as home:
        write(home, "exported.html", data)
        words = ["buku", "--nostdin", "--tacit", "--import", "exported.html"]
        subprocess.run(words, cwd=home, env={**os.environ, "XDG_DATA_HOME": home}, stdin=subprocess.DEVNULL,
                       capture_output=True, timeout=120, check=True)
        with sqlite3.connect(os.path.join(home, "buku", "bookmarks.db")) as store:
            return store.execute("select metadata, URL from bookmarks order by id").fetchall()


READERS = {
    "netscape": [("html.parser", by_html_parser)] + [("buku", by_buku)] * bool(shutil.which("buku")),
    "chrome": [("json", by_json)],
    "cards": [("vobject", by_vobject)],
    "events": [("icalendar", by_icalendar), ("vobject", by_vobject)],
    "records": [("csv", by_csv)],
}

# --- All files ---


def form_of(path, data):
    if path.endswith(".csv"):
        return tables.Table(data)
    if path.endswith("Bookmarks"):
        return marks.Kept()
    if b"NETSCAPE-Bookmark-file" in data or path.endswith(".htm"):
        return marks.Exported()
    return lines.Lines("events" if path.endswith(".ics") else "cards")


def with_version(data, version):
    """Cards of this version, in place of their own or of none."""
    told_by = rb"(?mi)^(BEGIN:VCARD(\r?\n))(VERSION:[0-9.]+\r?\n)?"
    return re.sub(told_by, rb"\1VERSION:" + version.encode() + rb"\2", data)


def try_row(row):
    package, path, beginning, version, verdict = row.rstrip("\n").split("\t")
    title = f"{package} {path}" + ("" if version == "-" else f" as version {version}")
    try:
        data = slurp(os.path.join(folder, package), path)
    except OSError:
        told("skipped", title, "it isn't there")
        return
    if not hashlib.sha256(data).hexdigest().startswith(beginning):
        told("skipped", title, "it is another one")
        return
    data = data if version == "-" else with_version(data, version)
    try_file(title, data, form_of(path, data), verdict)


with open(verdicts, encoding="utf-8") as rows:
    for each in rows:
        if not each.startswith("#"):
            try_row(each)
print(", ".join(f"{number} {name}" for name, number in counts.items()))
sys.exit(counts["failed"] != 0)

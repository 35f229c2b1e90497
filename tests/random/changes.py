"""Made-up files, of which harmony-changes tells what a synchronisation then does.

    changes.py HARMONY HARMONY_CHANGES [RUNS [SEED]]     200 runs of these programs, from seed 1

Two trees, or a table and vCards, are changed at random and synchronised, four times one after another, the first time
without an archive, or with one that has no bytes. Before each synchronisation harmony-changes is asked. It has to leave
the files alone, and to tell the conflicts that `sync` tells. What its lines take away and add has to make, of the views
from before, those that `harmony view` shows afterwards, where what is added is what the other side had there. Its
numbers, the names that are alike, and its status with --most are counted anew. The first faults are printed, each with
its seed; the last line counts the runs."""

import os
import random as chance
import re
import subprocess
import sys
import tempfile
import unicodedata
from pathlib import Path

from trees import in_order, spelled, text_of

# Names that are alike in many ways, and some others.
NAMES = ["Ann", "ANN", "ann", "Ann ", "A\u0301nn", "\u00c1nn", "\u00e1nn", "\uff21nn"]
NAMES += ["Bo Li", "Bo  Li", "bo li", "Cy", "Di, Eve", 'q"\\']
TEXTS = ["1", "2", "3|4", "a@b.c", "A@b.c", "a\\", "fi", "\ufb01", "x  y", "x y", "\u65e5"]
SLOTS = ["schema", "lensA", "lensB", "archive", "A", "B"]

EVERY = "node R\n  other any R\n  shape + 0..\n"
VALUES = "node R\n  other any V\n  shape + 0..\nnode V\n  other any Empty\n  shape + 1..1\n"
BOOK = """node R
  other filled Cards
  shape + 0..
node Cards
  edge *h Card
  edge *t More
  shape *h *t
node More
  edge *h Card
  edge *t More
  shape
  shape *h *t
node Card
  edge BDAY Day
  edge EMAIL Texts
  edge TEL Texts
  shape ? BDAY EMAIL TEL
node Day
  other filled Empty
  shape + 1..1
node Texts
  other filled Empty
  shape + 1..
"""
TABLE_LENS = "harmony lens 1\nformat csv key=Name show=BDAY many=TEL,EMAIL\nmain = id\n"
CARDS_LENS = "harmony lens 1\nformat vcard show=BDAY,EMAIL,TEL\nmain = id\n"


# ---- trees at paths


def read_tree(text):
    """The tree of a text, in which a name of a dictionary leads to what stands below it."""
    tokens = re.findall(r'"(?:[^"\\]|\\.)*"|[{}:,]', text)
    tops, name = [{}], None
    for it in tokens:
        if it == "{":
            tops.append(tops[-1].setdefault(name, {}))
        elif it == "}":
            tops.pop()
        elif it[0] == '"':
            name = unspelled(it)
            tops[-1][name] = {}
    return tops[0].get(None, {})


def unspelled(name):
    return re.sub(r"\\(x[0-9a-f]{2}|.)", lambda it: chr(int(it[1][1:], 16)) if len(it[1]) == 3 else it[1], name[1:-1])


def read_path(text):
    return tuple(unspelled(it) for it in re.findall(r'/("(?:[^"\\]|\\.)*")', text))


def at(tree, path):
    """What stands at a path, or None."""
    for name in path:
        tree = None if tree is None else tree.get(name)
    return tree


def copied(tree):
    return {name: copied(below) for name, below in tree.items()}


def key_of(path):
    return [name.encode() for name in path]


# ---- made-up changes


def changed_tree(random, tree, depth, one_below=False):
    """The tree with some names added, taken away, or changed below."""
    out = {}
    for name, below in tree.items():
        way = random.random()
        if way < 0.2:
            continue
        if one_below and way < 0.5:
            below = {random.choice(TEXTS): {}}
        elif not one_below and depth and way < 0.6:
            below = changed_tree(random, below, depth - 1)
        out[name] = copied(below)
    for _ in range(random.choice([0, 0, 1, 2])):
        below = {random.choice(TEXTS): {}} if one_below else {}
        out.setdefault(random.choice(NAMES), below if one_below or not depth else changed_tree(random, {}, depth - 1))
    return out


def changed_card(random, card):
    card = copied(card)
    for name in ("TEL", "EMAIL"):
        texts = card.pop(name, {})
        texts = {it: {} for it in texts if random.random() < 0.8}
        if random.random() < 0.3:
            texts[random.choice(TEXTS)] = {}
        if texts:
            card[name] = texts
    if random.random() < 0.3:
        card.pop("BDAY", None)
    if random.random() < 0.2:
        card["BDAY"] = {random.choice(["19900203", "19900204", "May"]): {}}
    return card


def cards_of(tree):
    """The cards of a list."""
    while tree:
        yield tree["*h"]
        tree = tree["*t"]


def list_of(cards):
    tree = {}
    for card in reversed(cards):
        tree = {"*h": card, "*t": tree}
    return tree


def changed_book(random, book):
    out = {}
    for key, below in book.items():
        cards = [changed_card(random, it) if random.random() < 0.4 else it for it in cards_of(below)]
        cards = [it for it in cards if random.random() < 0.9]
        if random.random() < 0.1:
            cards.append(changed_card(random, {}))
        if cards and random.random() < 0.9:
            out[key] = list_of(cards)
    for _ in range(random.choice([0, 1, 1, 3])):
        out.setdefault(random.choice(NAMES), list_of([changed_card(random, {})]))
    return out


def tree_file(tree):
    return text_of(tree) + "\n"


def table_file(book):
    def field(text):
        return '"' + text.replace('"', '""') + '"'

    def texts(card, name):
        return "|".join(it.replace("\\", "\\\\").replace("|", "\\|") for it in card.get(name, {}))

    rows = [["Name", "TEL", "EMAIL", "BDAY", "Notes"]]
    for key, below in book.items():
        for card in cards_of(below):
            rows.append([key, texts(card, "TEL"), texts(card, "EMAIL"), *card.get("BDAY", [""]), "kept"])
    return "".join(",".join(map(field, row)) + "\n" for row in rows)


def cards_file(book):
    def line(name, text):
        return f"{name}:" + re.sub(r"([\\,;])", r"\\\1", text)

    lines = []
    for key, below in book.items():
        for card in cards_of(below):
            lines += ["BEGIN:VCARD", "VERSION:4.0", line("FN", key), "N:;;;;"]
            lines += [line(name, text) for name in card for text in card[name]]
            lines.append("END:VCARD")
    return "".join(it + "\r\n" for it in lines)


# What a file of a kind is changed by, and how each side writes it.
KINDS = {
    "trees": (EVERY, lambda random, tree: changed_tree(random, tree, 3), tree_file, tree_file),
    "values": (VALUES, lambda random, tree: changed_tree(random, tree, 1, True), tree_file, tree_file),
    "books": (BOOK, changed_book, table_file, cards_file),
}


# ---- what has to be told


def alike(name):
    """The same for names that are alike: those that match but for case and compatibility (The Unicode Standard, section
    3.13, D146), and for spaces."""
    for form in ("NFD", "NFKD"):
        name = unicodedata.normalize(form, name).casefold()
    return " ".join(it for it in unicodedata.normalize("NFKD", name).split(" ") if it)


def alike_lines(old, paths):
    """The lines of the names that are alike, for views and paths of both sides."""
    lines = set()
    for parent in {path[:-1] for path in paths}:
        shown = set(at(old["A"], parent) or {}) | set(at(old["B"], parent) or {})
        for form in {alike(path[-1]) for path in paths if path[:-1] == parent}:
            names = in_order(it for it in shown if alike(it) == form)
            if len(names) > 1:
                places = [("A" if at(old["A"], (*parent, it)) is not None else "B", (*parent, it)) for it in names]
                lines.add("alike " + " ".join(f"{side} {spelled_path(path)}" for side, path in places))
    return lines


def spelled_path(path):
    return "".join("/" + spelled(it) for it in path)


class Told:
    """The parts of what was told, in their order."""

    def __init__(self, text):
        self.lines = text.splitlines()
        self.first = self.taken(r"first run$")
        self.changes = {side: [(it[2], read_path(it[4:])) for it in self.taken(rf"{side} [+-] /")] for side in "AB"}
        self.alike = self.taken(r"alike ")
        self.conflicts = self.taken(r"conflict ")
        self.numbers = {side: self.taken(rf"{side}: ") for side in "AB"}
        self.last = self.taken(r"agreed$|conflicts [0-9]+$")

    def taken(self, form):
        taken = []
        while self.lines and re.match(form, self.lines[0]):
            taken.append(self.lines.pop(0))
        return taken


def change_fault(changes, old, other, new):
    """What is wrong with the lines of one side, or None. `old`, `other` and `new` are the views of this side, of the
    other one, and of this one afterwards."""
    paths = [path for _, path in changes]
    if any(key_of(one) >= key_of(two) for one, two in zip(paths, paths[1:])):
        return "not in the order of their paths"
    made = copied(old)
    for sign, path in changes:
        above, name = at(made, path[:-1]), path[-1]
        if above is None or at(old, path[:-1]) is None or at(new, path[:-1]) is None:
            return f"not the topmost path: {path}"
        if (sign == "+") == (name in above):
            return f"{sign} says another thing than the view: {path}"
        if sign == "-":
            del above[name]
        elif at(other, path) is None:
            return f"the other side has nothing at {path}"
        else:
            above[name] = copied(at(other, path))
    return None if made == new else "what comes of them is another view than that afterwards"


def numbers_of(side, changes, old):
    entries = [(sign, path[0]) for sign, path in changes if len(path) == 1]
    added, deleted = (sum(it == sign for it, _ in changes) for sign in "+-")
    came, went = (sum(it == sign for it, _ in entries) for sign in "+-")
    below = len({path[0] for _, path in changes if len(path) > 1})
    entries = f"{len(old)} entries: {came} added, {went} deleted, {below} changed"
    return f"{side}: {added} added, {deleted} deleted; {entries}", went


def fault_of(told, status, old, new, report, ended, had_archive):
    """What is wrong with what was told, or None."""
    if told.lines or len(told.last) != 1:
        return f"lines out of their place: {told.lines}"
    if bool(told.first) == had_archive:
        return "a first run, or none"
    for side, other in ("AB", "BA"):
        fault = change_fault(told.changes[side], old[side], old[other], new[side])
        if fault:
            return f"{side}: {fault}"
        numbers = [numbers_of(side, told.changes[side], old[side])[0]] if told.changes[side] else []
        if told.numbers[side] != numbers:
            return f"{told.numbers[side]} and not {numbers}"
    wanted = alike_lines(old, {path for side in "AB" for _, path in told.changes[side]})
    if sorted(told.alike) != sorted(wanted):
        return f"{told.alike} and not {sorted(wanted)}"
    if told.conflicts + told.last != report.splitlines() or status != ended:
        return f"status {status}, {told.conflicts + told.last}, and a synchronisation {ended}, {report.splitlines()}"
    return None


# ---- runs


class Runs:
    """The files of some synchronisations, one after another, in a folder."""

    def __init__(self, harmony, changes, random, folder):
        self.harmony, self.changes, self.random, self.folder = harmony, changes, random, folder
        schema, self.change, *self.writers = KINDS[random.choice([*KINDS])]
        self.views = {"A": {}, "B": {}}
        self.write("schema", "harmony schema 1\nroot R\n" + schema)
        trees = "harmony lens 1\nformat tree root=R\n" + schema + "main = id\n"
        for slot, writer in zip(("lensA", "lensB"), self.writers):
            self.write(slot, {table_file: TABLE_LENS, cards_file: CARDS_LENS}.get(writer, trees))
        if random.random() < 0.3:
            self.write("archive", "")

    def write(self, slot, text):
        (self.folder / slot).write_bytes(text.encode())

    def ask(self, *words):
        ended = subprocess.run(words, cwd=self.folder, stdin=subprocess.DEVNULL, stdout=subprocess.PIPE, check=False)
        return ended.returncode, ended.stdout.decode()

    def view(self, side):
        return read_tree(self.ask(self.harmony, "view", f"lens{side}", side)[1])

    def shown(self):
        return {side: self.view(side) for side in "AB"}

    def state(self):
        return {it.name: (it.read_bytes(), it.stat().st_mtime_ns, it.stat().st_ino) for it in self.folder.iterdir()}

    def next(self):
        """Changes both files, looks and synchronises, and says what was wrong with the look."""
        for side, writer in zip("AB", self.writers):
            self.write(side, writer(self.change(self.random, self.views[side])))
        before, old = self.state(), self.shown()
        status, text = self.ask(self.changes, *SLOTS)
        told = Told(text)
        braked = self.brake_fault(told, status, text, old)
        touched = self.state() != before
        ended, report = self.ask(self.harmony, "sync", *SLOTS)
        self.views = self.shown()
        if touched:
            return "a file was touched"
        had_archive = len(before.get("archive", (b"",))[0]) > 0
        return fault_of(told, status, old, self.views, report, ended, had_archive) or braked

    def brake_fault(self, told, status, text, old):
        """What is wrong with what is told with the flag, or None."""
        most = max(numbers_of(side, told.changes[side], old[side])[1] for side in "AB")
        for flag in ([f"--most={most}"], ["--most", str(most - 1)] if most else ["--most", "0"]):
            wanted = 7 if most and flag[0] == "--most" else status
            if self.ask(self.changes, *flag, *SLOTS) != (wanted, text):
                return f"another status than {wanted}, or another text, with {flag}"
        return None


def main():
    harmony, changes = (os.path.realpath(it) for it in sys.argv[1:3])
    runs, seed = [int(it) for it in sys.argv[3:5]] + [200, 1][len(sys.argv[3:5]) :]
    passed, failed, number = 0, 0, 0
    while passed + failed < runs and failed < 5:
        number += 1
        with tempfile.TemporaryDirectory() as folder:
            chain = Runs(harmony, changes, chance.Random(f"{seed}-{number}"), Path(folder))
            for step in range(4):
                fault = chain.next()
                passed += fault is None
                if fault:
                    failed += 1
                    print(f"seed {seed}-{number}, run {step + 1}: {fault}")
    print(f"{passed} runs passed, {failed} failed")
    return 1 if failed else 0


if __name__ == "__main__":
    sys.exit(main())

"""Nodes, random schemas, and random members of them.

A node lists names with their nodes, says which other names there may be, has shapes, and twins. Nodes stand in one list, a
table, and name one another by their places in it; lenses put their views behind."""

from dataclasses import dataclass, field

from trees import TEXTS, in_order, spelled

CLASSES = ["any", "clean", "filled", "trimmed", "folded"]
FAR = 1000


@dataclass(frozen=True)
class Shape:
    required: frozenset
    optional: frozenset = frozenset()
    least: int = 0
    most: object = 0

    def names(self):
        return self.required | self.optional

    def lets_in(self):
        return self.most != 0


@dataclass
class Node:
    children: dict = field(default_factory=dict)
    other: object = None
    shapes: list = field(default_factory=list)
    twins: tuple = ()

    def used(self):
        return frozenset().union(*(s.names() for s in self.shapes))

    def lets_in(self):
        return any(s.lets_in() for s in self.shapes)

    def edges(self):
        return list(self.children.values()) + ([self.other[1]] if self.other else [])


def shape(required, optional=(), least=0, most=0):
    return Shape(frozenset(required), frozenset(optional), least, most)


def tidied(node):
    """Without the names, and without the others, that never are there."""
    if node.lets_in():
        return node
    used = node.used()
    return Node({n: i for n, i in node.children.items() if n in used}, None, node.shapes, node.twins)


class Table:
    def __init__(self):
        self.nodes = []

    def add(self, node):
        self.nodes.append(node)
        return len(self.nodes) - 1

    def at(self, i):
        return self.nodes[i]

    def same(self, one, two, seen=None):
        seen = set() if seen is None else seen
        if one == two or (one, two) in seen:
            return True
        seen.add((one, two))
        n, m = tidied(self.at(one)), tidied(self.at(two))
        if set(n.shapes) != set(m.shapes) or set(n.children) != set(m.children) or set(n.twins) != set(m.twins):
            return False
        if (n.other and n.other[0]) != (m.other and m.other[0]):
            return False
        pairs = [(n.children[k], m.children[k]) for k in n.children]
        if n.other:
            pairs.append((n.other[1], m.other[1]))
        return all(self.same(i, j, seen) for i, j in pairs)

    def exactly(self, tree):
        return self.add(Node({n: self.exactly(t) for n, t in tree.items()}, None, [shape(tree)]))

    def reached(self, tops):
        found, todo = set(), list(tops)
        while todo:
            i = todo.pop()
            if i not in found:
                found.add(i)
                todo += self.at(i).edges()
        return sorted(found)

    def lines(self, tops):
        """The lines of the nodes that these ones reach, as schema files and lens files have them."""
        out = []
        for i in self.reached(tops):
            node = self.at(i)
            out.append(f"node N{i}")
            out += [f"  edge {spelled(n)} N{j}" for n, j in node.children.items()]
            if node.other:
                out.append(f"  other {node.other[0]} N{node.other[1]}")
            out += [shape_line(s) for s in node.shapes]
        return out

    def heights(self, top):
        """The least height of a member of each node, or FAR where there is none."""
        found, before = [FAR] * top, None
        while found != before:
            before = list(found)
            for i in range(top):
                found[i] = min([FAR] + [shape_height(found, self.at(i), s) for s in self.at(i).shapes])
        return found


def shape_height(found, node, s):
    below = [found[node.children[n]] for n in s.required]
    if s.least:
        below.append(found[node.other[1]])
    return 1 + max(below, default=-1)


def shape_line(s):
    out = "  shape" + "".join(" " + spelled(n) for n in in_order(s.required))
    if s.optional:
        out += " ?" + "".join(" " + spelled(n) for n in in_order(s.optional))
    if s.least or s.most != 0:
        out += f" + {s.least}.." + ("" if s.most is None else str(s.most))
    return out


def other_name(random, kind, taken):
    """A name of a class that isn't taken."""
    for _ in range(30):
        name = random.choice(TEXTS) + random.choice(["", "", "1", "2", "zz"])
        if kind == "any":
            name += random.choice(["", "\x01", "\x7f", " "])
        elif kind in ("clean", "filled"):
            name += random.choice(["", " ", "\t", "\n"])
        elif kind == "trimmed":
            name = random.choice(["", "A", "Z"]) + name
        if name not in taken:
            return name
    return None


def member(random, table, heights, i, depth):
    """A random member of a node, of about this depth at the most; None where none was found."""
    node = table.at(i)
    fit = [s for s in node.shapes if shape_height(heights, node, s) < FAR]
    if not fit:
        return None
    low = [s for s in fit if shape_height(heights, node, s) == heights[i]]
    s = random.choice(fit if depth > 0 else low)
    names = set(s.required)
    names |= {n for n in in_order(s.optional) if depth > 0 and random.random() < 0.6 and heights[node.children[n]] < FAR}
    tree = {}
    for n in in_order(names):
        tree[n] = member(random, table, heights, node.children[n], depth - 1)
    for _ in range(wanted(random, heights, node, s, depth)):
        n = other_name(random, node.other[0], set(tree) | set(node.children))
        if n is None:
            return None
        tree[n] = member(random, table, heights, node.other[1], depth - 1)
    for m, n in node.twins:
        tree[n] = tree.get(m)
    return None if any(t is None for t in tree.values()) else tree


def wanted(random, heights, node, s, depth):
    """How many other names."""
    if not s.lets_in() or heights[node.other[1]] == FAR:
        return s.least
    most = s.least + (random.choice([0, 1, 2, 3]) if depth > 0 else 0)
    return most if s.most is None else min(most, s.most)


# ---- random nodes


def text_node(random, table):
    empty = table.add(Node({}, None, [shape([])]))
    kind = random.choice(CLASSES)
    return table.add(Node({}, (kind, empty), [random.choice([shape([], [], 1, 1), shape([], [], 0, None), shape([], [], 1, 2)])]))


def list_node(random, table, item, more):
    """A list, or a list with an item at least."""
    rest = table.add(Node())
    table.nodes[rest] = Node({"*h": item, "*t": rest}, None, [shape([]), shape(["*h", "*t"])])
    return table.add(Node({"*h": item, "*t": rest}, None, [shape(["*h", "*t"])])) if more else rest


def random_shapes(random, names, other):
    shapes = []
    for _ in range(random.choice([1, 1, 1, 1, 2, 3])):
        kinds = [(n, random.choice("rro-" if random.random() < 0.8 else "ro--")) for n in names]
        counts = random.choice([(0, 0), (0, None), (1, 2), (0, 1)]) if other else (0, 0)
        found = shape([n for n, k in kinds if k == "r"], [n for n, k in kinds if k == "o"], *counts)
        if found not in shapes or random.random() < 0.1:
            shapes.append(found)
    return shapes


def random_node(random, table, depth, above):
    """A new node; edges may lead back to nodes above it."""
    kind = random.random()
    if depth == 0 or kind < 0.15:
        return random.choice([text_node, text_node, lambda r, t: t.add(Node({}, None, [shape([])]))])(random, table)
    if kind < 0.3:
        return list_node(random, table, random_node(random, table, depth - 1, above), random.random() < 0.3)
    here = table.add(Node())
    within = above + [here]
    below = lambda: random.choice(within) if random.random() < 0.15 else random_node(random, table, depth - 1, within)
    names = random.sample(["a", "b", "c", "d", "e", "x y"], random.choice([0, 1, 1, 2, 2, 3]))
    other = (random.choice(CLASSES), below()) if kind > 0.8 or not names else None
    children = {}
    for n in names:
        # the same node as an earlier name's, at times a copy of it
        again = random.choice(list(children.values())) if children and random.random() < 0.25 else None
        children[n] = below() if again is None else again if random.random() < 0.5 or not table.at(again).shapes else copied(table, again)
    table.nodes[here] = Node(children, other, random_shapes(random, names, other))
    return here


def copied(table, i):
    node = table.at(i)
    return table.add(Node(dict(node.children), node.other, list(node.shapes), node.twins))

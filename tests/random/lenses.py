"""Random terms, built along the types, with the node of the view of each.

A maker of a term takes a node, and gives the text of the term and its view's node, or None where it can't be used there. What
it doesn't look at, the check of the program refuses: so most of the terms are typed, and not all."""

from itertools import product

from schemas import Node, Shape, list_node, member, shape, tidied
from trees import NAMES, any_tree, in_order, spelled, text_of


def in_braces(names):
    return "{" + " ".join(spelled(n) for n in in_order(names)) + "}"


def then(first, second):
    return (f"({first})" if ";" in first else first) + ";" + second


def always_there(node):
    return frozenset.intersection(*(s.required for s in node.shapes)) if node.shapes else frozenset()


class Terms:
    def __init__(self, random, table):
        self.random, self.table = random, table
        self.definitions = []
        self.known = (0, [])

    def heights(self):
        if self.known[0] != len(self.table.nodes):
            self.known = (len(self.table.nodes), self.table.heights(len(self.table.nodes)))
        return self.known[1]

    def member(self, i):
        for _ in range(5):
            found = member(self.random, self.table, self.heights(), i, self.random.choice([0, 1, 2]))
            if found is not None:
                return found
        return None

    def node(self, children, other, shapes, twins=()):
        return self.table.add(Node(children, other, shapes, tuple(twins)))

    def term(self, i, depth):
        leaves = [self.identity, self.constant, self.hoist, self.hoist, self.plunge, self.call, self.call]
        leaves += [self.copy, self.copy, self.merge, self.merge]
        inner = [self.sequence, self.sequence, self.fork, self.fork, self.map, self.named, self.named, self.list, self.list]
        inner += [self.on_concrete, self.on_concrete, self.on_view, self.on_view, self.derived, self.derived]
        for _ in range(10):
            found = self.random.choice(leaves if depth <= 0 else inner + leaves)(i, depth - 1)
            if found is not None:
                return found
        return "id", i

    def main(self, i, depth):
        """A term for the source of a program, at times a call and what stands behind it."""
        called = self.call(i, depth) if self.random.random() < 0.4 else None
        if called is None or self.random.random() < 0.4:
            return called or self.term(i, depth)
        second, view = self.term(called[1], depth - 1)
        return then(called[0], second), view

    def identity(self, i, depth):
        return "id", i

    def sequence(self, i, depth):
        first, middle = self.term(i, depth)
        second, view = self.term(middle, depth)
        return then(first, second), view

    def constant(self, i, depth):
        default = self.member(i)
        if default is None:
            return None
        tree = self.random.choice([default, {}, any_tree(self.random, 2), any_tree(self.random, 1)])
        return f"const({text_of(tree)},{text_of(default)})", self.table.exactly(tree)

    def hoist(self, i, depth):
        node = tidied(self.table.at(i))
        if len(set(node.shapes)) != 1 or node.lets_in() or node.twins or node.shapes[0].optional or len(node.used()) != 1:
            return None
        (name,) = node.used()
        return f"hoist({spelled(name)})", node.children[name]

    def plunge(self, i, depth):
        name = self.random.choice(NAMES)
        return f"plunge({spelled(name)})", self.node({name: i}, None, [shape([name])])

    # ---- of which the names are parted

    def fork(self, i, depth):
        node = self.table.at(i)
        if len(node.shapes) != 1:
            return None
        pool = in_order(node.children if node.lets_in() else node.used())
        names = {n for n in pool if self.random.random() < 0.5}
        parts = self.parts(i, names)
        if parts is None:
            return None
        if not node.lets_in():
            names |= self.seldom(n for n in NAMES if n not in pool)
        for ways in range(4):
            first, one = self.side(parts[0], depth) if ways in (0, 1) else ("id", parts[0])
            second, two = self.side(parts[1], depth) if ways in (0, 2) else ("id", parts[1])
            others = self.table.at(two)
            free = others.children if others.lets_in() else NAMES
            shown = self.table.at(one).used() | self.seldom(n for n in free if n not in others.used())
            view = self.joined(one, two, shown)
            if view is not None:
                return f"xfork({in_braces(names)},{in_braces(shown)},{first},{second})", view
        return None

    def side(self, i, depth):
        """A term for one side of a fork, often one whose view has several shapes."""
        return self.random.choice([self.term, self.hoist, self.hoist, self.on_view])(i, depth) or self.term(i, depth)

    def seldom(self, names):
        """One of the names at times, else none."""
        names = list(names)
        return {self.random.choice(names)} if names and self.random.random() < 0.15 else set()

    def parts(self, i, names):
        node = self.table.at(i)
        s = node.shapes[0]
        if any((m in names) != (n in names) for m, n in node.twins):
            return None
        inside, outside = s.names() & names, s.names() - names
        twins = [t for t in node.twins if t[0] in inside]
        others = [t for t in node.twins if t[0] in outside]
        one = self.node(dict(node.children), node.other, [shape(s.required & names, s.optional & names)], twins)
        two = self.node(dict(node.children), node.other, [Shape(s.required - names, s.optional - names, s.least, s.most)], others)
        return one, two

    def joined(self, one, two, shown):
        n, m = self.table.at(one), self.table.at(two)
        if n.lets_in() or shown & m.used() or (m.lets_in() and not shown <= set(m.children)):
            return None
        shapes = [Shape(s.required | t.required, s.optional | t.optional, t.least, t.most) for s, t in product(n.shapes, m.shapes)]
        if len(shapes) > 256:
            return None
        children = dict(m.children)
        children.update({k: n.children[k] for k in in_order(shown) if k in n.children})
        return self.node(children, m.other, shapes, n.twins + m.twins)

    # ---- below names

    def map(self, i, depth):
        node = self.table.at(i)
        used = in_order(node.used())
        below = [node.children[n] for n in used] + ([node.other[1]] if node.lets_in() else [])
        if node.twins or not below:
            return None
        if all(self.table.same(below[0], j) for j in below):
            text, view = self.term(below[0], depth)
            led = lambda j: view
        else:
            name = spelled(self.random.choice(NAMES))
            text = self.random.choice(["id", f"plunge({name});hoist({name})"])
            led = lambda j: j
        children = {n: led(j) if n in used else j for n, j in node.children.items()}
        other = (node.other[0], led(node.other[1])) if node.lets_in() else node.other
        return f"map({text})", self.node(children, other, list(node.shapes))

    def named(self, i, depth):
        node = self.table.at(i)
        pool = in_order(node.used()) if self.random.random() < 0.9 else in_order(node.children)
        names = [n for n in pool if self.random.random() < 0.6]
        if node.twins or not names:
            return None
        self.random.shuffle(names)
        children, rows = dict(node.children), []
        for n in names:
            text, children[n] = self.term(node.children[n], depth)
            rows.append(f"{spelled(n)}={text}")
        return f"wmap({','.join(rows)})", self.node(children, node.other, list(node.shapes))

    def list_form(self, i):
        """The node of the items of a list, and whether there is one at least."""
        node = tidied(self.table.at(i))
        shapes, full = set(node.shapes), shape(["*h", "*t"])
        if node.twins or node.lets_in() or set(node.children) != {"*h", "*t"}:
            return None
        if shapes == {shape([]), full}:
            return (node.children["*h"], False) if self.table.same(node.children["*t"], i) else None
        rest = self.list_form(node.children["*t"]) if shapes == {full} and node.children["*t"] != i else None
        fits = rest is not None and not rest[1] and self.table.same(rest[0], node.children["*h"])
        return (node.children["*h"], True) if fits else None

    def list(self, i, depth):
        form = self.list_form(i)
        if form is None:
            return None
        text, view = self.term(form[0], depth)
        return f"list({text})", list_node(self.random, self.table, view, form[1])

    # ---- twins

    def copy(self, i, depth):
        node = self.table.at(i)
        always = in_order(always_there(node))
        free = [n for n in (node.children if node.lets_in() else NAMES) if n not in node.used()]
        if node.twins or not always or not free:
            return None
        m, n = self.random.choice(always), self.random.choice(free)
        children = dict(node.children)
        children[n] = node.children[m]
        shapes = [Shape(s.required | {n}, s.optional, s.least, s.most) for s in node.shapes]
        text, view = f"copy({spelled(m)},{spelled(n)})", self.node(children, node.other, shapes, [(m, n)])
        way = self.random.random()
        if way < 0.1:
            return text, view
        if way < 0.2:
            careless = [f"hoist({spelled(m)})", "map(id)", f"wmap({spelled(n)}=id)", f"copy({spelled(n)},{spelled(m)})", "list(id)"]
            return then(text, self.random.choice(careless)), view
        if way < 0.5:
            found = self.fork(view, depth)
            if found is not None and (m, n) in self.table.at(found[1]).twins:
                text, view = then(text, found[0]), found[1]
        if way > 0.9:
            second, last = self.term(view, depth)
        else:
            second, last = self.merged(view, *self.random.choice([(m, n), (m, n), (m, n), (n, m)]))
        return then(text, second), last

    def merge(self, i, depth):
        node = self.table.at(i)
        always = in_order(always_there(node))
        pairs = [(m, n) for m in always for n in always if m != n and self.table.same(node.children[m], node.children[n])]
        if not pairs or (node.twins and self.random.random() < 0.5):
            return None
        return self.merged(i, *self.random.choice(pairs))

    def merged(self, i, m, n):
        node = self.table.at(i)
        shapes = [Shape(s.required - {n}, s.optional, s.least, s.most) for s in node.shapes]
        twins = [t for t in node.twins if set(t) != {m, n}]
        return f"merge({spelled(m)},{spelled(n)})", self.node(dict(node.children), node.other, shapes, twins)

    # ---- conditions

    def branches(self, i):
        node = self.table.at(i)
        names = [n for n in in_order(node.children) if any(n in s.names() for s in node.shapes) and any(n not in s.required for s in node.shapes)]
        if node.twins or not names:
            return None
        n = self.random.choice(names)
        there = [Shape(s.required | {n}, s.optional - {n}, s.least, s.most) for s in node.shapes if n in s.names()]
        gone = [Shape(s.required, s.optional - {n}, s.least, s.most) for s in node.shapes if n not in s.required]
        return n, self.node(dict(node.children), node.other, there), self.node(dict(node.children), node.other, gone)

    def on_concrete(self, i, depth):
        found = self.branches(i)
        if found is None:
            return None
        n, there, gone = found
        way = self.random.random()
        one, two = self.member(there), self.member(gone)
        if way < 0.4 and one is not None and two is not None:
            tree = self.random.choice([{}, one, two, any_tree(self.random, 1)])
            first, second = f"const({text_of(tree)},{text_of(one)})", f"const({text_of(tree)},{text_of(two)})"
            return f"ccond({spelled(n)},{first},{second})", self.table.exactly(tree)
        if way < 0.8 and len(self.table.at(there).shapes) == 1 and one is not None:
            return f"ccond({spelled(n)},prune({spelled(n)},{text_of(one[n])}),id)", gone
        return self.named_anew(n, there, gone)

    def named_anew(self, n, there, gone):
        """A lens that shows the name as another one, with the same tree below it as where the name wasn't there."""
        node, free = self.table.at(there), [m for m in NAMES if m not in self.table.at(gone).used()]
        default = self.member(node.children[n])
        if len(node.shapes) != 1 or len(self.table.at(gone).shapes) != 1 or default is None:
            return None
        m, tree = self.random.choice(free), any_tree(self.random, 1)
        view = self.joined(self.node({m: self.table.exactly(tree)}, None, [shape([m])]), gone, {m})
        constant = f"const({text_of(tree)},{text_of(default)})"
        first = f"xfork({in_braces([n])},{in_braces([m])},hoist({spelled(n)});{constant};plunge({spelled(m)}),id)"
        return None if view is None else (f"ccond({spelled(n)},{first},add({spelled(m)},{text_of(tree)}))", view)

    def on_view(self, i, depth):
        found = self.branches(i)
        if found is None:
            return None
        n, there, gone = found
        for _ in range(4):
            first, one = self.random.choice([self.renamed, self.named, self.identity, self.fork, self.term])(there, depth) or ("id", there)
            second, two = self.random.choice([self.renamed, self.named, self.identity, self.identity, self.term])(gone, depth) or ("id", gone)
            always = always_there(self.table.at(one)) - self.table.at(two).used()
            for m in in_order(always):
                view = self.united(one, two, m)
                if view is not None:
                    return f"acond({spelled(n)},{spelled(m)},{first},{second})", view
        return None

    def united(self, one, two, m):
        n, k = self.table.at(one), self.table.at(two)
        open_ended = n.lets_in() or k.lets_in()
        if n.twins or k.twins or (k.lets_in() and m not in k.children) or (open_ended and set(n.children) != set(k.children)):
            return None
        if not all(self.table.same(n.children[c], k.children[c]) for c in n.children if c in k.children):
            return None
        if n.other and k.other and (n.other[0] != k.other[0] or not self.table.same(n.other[1], k.other[1])):
            return None
        shapes, gone = [], list(k.shapes)
        for s in n.shapes:
            without = Shape(s.required - {m}, s.optional, s.least, s.most)
            shapes.append(Shape(without.required, s.optional | {m}, s.least, s.most) if without in k.shapes else s)
            gone = [t for t in gone if t != without]
        return self.node({**k.children, **n.children}, n.other or k.other, shapes + gone)

    # ---- derived lenses

    def renamed(self, i, depth):
        node = self.table.at(i)
        free = [n for n in NAMES if n not in node.used()]
        if len(node.shapes) != 1 or not node.shapes[0].required or not free or node.twins:
            return None
        m, n = self.random.choice(in_order(node.shapes[0].required)), self.random.choice(free)
        parts = self.parts(i, {m})
        view = self.joined(self.node({n: node.children[m]}, None, [shape([n])]), parts[1], {n})
        return None if view is None else (f"rename({spelled(m)},{spelled(n)})", view)

    def derived(self, i, depth):
        return self.random.choice([self.renamed, self.pruned, self.filtered, self.focused, self.focused, self.added])(i, depth)

    def pruned(self, i, depth):
        node = self.table.at(i)
        names = in_order(node.used())
        if len(node.shapes) != 1 or not names or node.twins:
            return None
        n = self.random.choice(names)
        default = self.member(node.children[n])
        return None if default is None else (f"prune({spelled(n)},{text_of(default)})", self.parts(i, {n})[1])

    def filtered(self, i, depth):
        node = self.table.at(i)
        if len(node.shapes) != 1 or node.twins:
            return None
        names = {n for n in in_order(node.used()) if self.random.random() < 0.5}
        one, two = self.parts(i, names)
        default = self.member(two)
        return None if default is None else (f"filter({in_braces(names)},{text_of(default)})", one)

    def focused(self, i, depth):
        node = self.table.at(i)
        names = in_order(always_there(node))
        if len(node.shapes) != 1 or not names or node.twins:
            return None
        n = self.random.choice(names)
        default = self.member(self.parts(i, {n})[1])
        return None if default is None else (f"focus({spelled(n)},{text_of(default)})", node.children[n])

    def added(self, i, depth):
        node = self.table.at(i)
        free = [n for n in (node.children if node.lets_in() else NAMES) if n not in node.used()]
        if len(node.shapes) != 1 or not free:
            return None
        n, tree = self.random.choice(free), any_tree(self.random, 1)
        view = self.joined(self.node({n: self.table.exactly(tree)}, None, [shape([n])]), i, {n})
        return None if view is None else (f"add({spelled(n)},{text_of(tree)})", view)

    # ---- definitions

    def call(self, i, depth):
        pool = [d for d in self.definitions if self.table.same(d[1], i)]
        if not pool:
            return None
        name, _, view, _ = self.random.choice(pool)
        return f"call({name})", view

    def again(self, calls, j, depth):
        """A term for a node below that of a definition; one with a call where it can be."""
        node, form = self.table.at(j), self.list_form(j)
        below = [node.children[n] for n in node.used()] + ([node.other[1]] if node.lets_in() else [])
        for name, i, view in calls:
            if self.table.same(i, j):
                return f"call({name})", view
            if form is not None and self.table.same(i, form[0]):
                return f"list(call({name}))", list_node(self.random, self.table, view, form[1])
            if below and not node.twins and all(self.table.same(i, b) for b in below):
                children = {n: view if n in node.used() else b for n, b in node.children.items()}
                other = (node.other[0], view) if node.lets_in() else node.other
                return f"map(call({name}))", self.node(children, other, list(node.shapes))
        return self.term(j, depth) if self.random.random() < 0.7 else ("id", j)

    def recursive(self, names, i, depth):
        """Definitions that call themselves, and one another, below names."""
        tops = [i]
        back = [j for j in self.table.at(i).edges() if any(self.table.same(i, k) for k in self.table.at(j).edges())]
        if len(names) > 1 and back:
            tops.append(self.random.choice(back))
        calls = [(name, j, self.table.add(Node())) for name, j in zip(names, tops)]
        made = [self.below_names(calls, j, depth) for _, j, _ in calls]
        if None in made:
            return
        for (name, j, view), (text, node) in zip(calls, made):
            self.table.nodes[view] = node
            self.definitions.append((name, j, view, text))
        self.known = (0, [])

    def below_names(self, calls, i, depth):
        node = self.table.at(i)
        names = in_order(node.used())
        if node.twins or not names or (node.lets_in() and any(self.table.same(j, node.other[1]) for _, j, _ in calls)):
            return None
        children, rows = dict(node.children), []
        for n in names:
            text, children[n] = self.again(calls, node.children[n], depth)
            rows.append(f"{spelled(n)}={text}")
        return f"wmap({','.join(rows)})", Node(children, node.other, list(node.shapes))

    def plain(self, name, i, depth):
        text, view = self.term(i, depth)
        self.definitions.append((name, i, view, text))

    def can_be_declared(self, i, seen=None):
        """Whether no node has twins, and each has a shape."""
        seen = set() if seen is None else seen
        if i in seen:
            return True
        seen.add(i)
        node = self.table.at(i)
        return bool(node.shapes) and not node.twins and all(self.can_be_declared(j, seen) for j in node.edges())

"""Trees, as dictionaries from names to trees, and their text."""

# Names for which lenses look, and texts that stand as values.
NAMES = ["a", "b", "c", "d", "e", "f", "*h", "*t", "x y", 'q"\\', "\u00fc", ""]
TEXTS = ["a", "b", "0", "x y", "\u00e9", "\u65e5", "long text", 'q"', "\\"]


def spelled(name):
    out = []
    for c in name:
        if c in '"\\':
            out.append("\\" + c)
        elif ord(c) < 0x20 or ord(c) == 0x7F:
            out.append(f"\\x{ord(c):02x}")
        else:
            out.append(c)
    return '"' + "".join(out) + '"'


def in_order(names):
    return sorted(names, key=lambda name: name.encode())


def text_of(tree):
    edges = [spelled(n) + (":" + text_of(tree[n]) if tree[n] else "") for n in in_order(tree)]
    return "{" + ",".join(edges) + "}"


def any_tree(random, depth):
    if depth == 0:
        return {}
    names = random.sample(NAMES, random.choice([0, 1, 1, 1, 2, 3]))
    return {n: any_tree(random, depth - 1) for n in names}

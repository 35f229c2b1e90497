"""Random cases: a schema, a lens file, and members of the schema."""

import random as chance
import re

from lenses import Terms
from schemas import Table, random_node, list_node
from trees import NAMES, spelled, text_of


class Case:
    """The texts of the files of a case."""

    def __init__(self, seed):
        random = chance.Random(seed)
        table = Table()
        source = random_node(random, table, random.choice([1, 2, 2, 3, 3]), [])
        if random.random() < 0.1:
            source = list_node(random, table, source, random.random() < 0.3)
        terms = Terms(random, table)
        define(random, table, terms, source)
        main, _ = terms.main(source, random.choice([0, 1, 2, 3, 3, 4]))
        tops = [source] + [i for _, one, two, _ in terms.definitions for i in (one, two)]
        bodies = [f"lens {name} N{one} N{two} = {text}" for name, one, two, text in terms.definitions]
        lenses = spoiled(random, bodies + [f"main = {main}"])
        nodes = table.lines(tops)
        self.schema = "\n".join(["harmony schema 1", f"root N{source}"] + table.lines([source])) + "\n"
        self.lens = "\n".join(["harmony lens 1", f"format tree root=N{source}"] + nodes + lenses) + "\n"
        found = [terms.member(source) for _ in range(3)]
        self.trees = [text_of(tree) + "\n" for tree in found if tree is not None]


def define(random, table, terms, source):
    """Some definitions, of nodes of the source; those that no file can declare are left out."""
    names = list("KLM"[: random.choice([0, 0, 0, 1, 1, 2, 3])])
    while names:
        known = len(terms.definitions)
        i, depth = random.choice([source, source] + table.reached([source])), random.choice([0, 1, 2])
        if random.random() < 0.6:
            terms.recursive(names, i, depth)
        else:
            terms.plain(names[0], i, depth)
        new = terms.definitions[known:]
        if not all(terms.can_be_declared(j) for _, one, two, _ in new for j in (one, two)):
            del terms.definitions[known:]
        names = names[max(1, len(new)) :]


def spoiled(random, lines):
    """The lines of lenses, with a change in one of them at times."""
    if random.random() < 0.85:
        return lines
    at = random.randrange(len(lines))
    head, text = lines[at].split(" = ", 1)
    way = random.random()
    if way < 0.6:
        found = list(re.finditer(r'"(?:[^"\\]|\\.)*"', text))
        if found:
            it = random.choice(found)
            text = text[: it.start()] + spelled(random.choice(NAMES)) + text[it.end() :]
    elif way < 0.8:
        name = re.findall(r"^lens (\w)", "\n".join(lines), re.M)
        text = f"call({random.choice(name)})" if name else f"map({text})"
    else:
        text = random.choice([f"{text};{text}", f"map({text})", f"list({text})", f"plunge(a);{text}"])
    lines[at] = f"{head} = {text}"
    return lines

#!/usr/bin/env python3
"""Extract and inline local in random programs: shapes.py [--first SEED] [--programs N] [--tries N];
with --inlines in programs that are made for copies: a local of operators, read in operators.

Each new text has to read as the tree that is meant: with the declaration and the name, or with
copies of the initializer, and no pair of parentheses may be one too many. References that are
spelled otherwise are left out of the comparison. Prints how many steps fell into each class.
"""
import argparse
import random
from collections import Counter

from reading import locals as steps
from reading.moving import LOOSEST, level
from reading.pieces import ways_of_list
from reading.renaming import Refused
from reading.tokens import Fault
from reading.trees import read
from sessions import RenamingMaker


def shape(node, instead, gone):
    """A tree without places, in which nodes have others instead and one is gone."""
    if isinstance(node, list):
        kept = [one for one in node if one is not gone]
        return [part for one in kept for part in shapes_of(one, instead, gone)]
    if not hasattr(node, "__dict__"):
        return node
    if id(node) in instead and len(instead[id(node)]) == 1:
        return instead[id(node)][0]
    names = sorted(name for name in vars(node) if not name.endswith("at") and name != "end")
    return tuple((name, shape(getattr(node, name), instead, gone)) for name in names)


def shapes_of(node, instead, gone):
    """What stands for an element of a list: itself, or a declaration and itself."""
    found = instead.get(id(node), [None])
    if len(found) == 1:
        return [shape(node, instead, gone)]
    return [found[0], shape(node, {k: v for k, v in instead.items() if k != id(node)}, gone)]


def plain(node):
    return shape(node, {}, None)


def in_brackets(one):
    return (("kind", "paren"), ("of", one))


def reads_as(text, wanted):
    try:
        return plain(read(text)) == wanted
    except Fault:
        return False


def extracted(asked, start, end, name):
    """The tree that is meant by an extraction."""
    found = steps.value_at(asked, start, end)
    type = found.type
    words = (("kind", type),)
    if isinstance(type, tuple):
        words = (("kind", "named"), ("name", (("text", type[1]),)), ("outer", None))
    word = (("text", name),)
    declaration = (
        ("final", False), ("init", plain(found.value)), ("kind", "local"), ("name", word),
        ("type", words),
    )
    instead = {id(found.value): [(("kind", "name"), ("name", word))]}
    instead[id(found.statement)] = [declaration, None]
    return shape(asked.program.units[asked.file], instead, None)


def inlined(asked, at, loose=None):
    """The tree that is meant, with the reads that have parentheses; one of these may do without."""
    found = steps.local_at(asked, at)
    init, walk = found.statement.init, steps.Inlining(asked.program, asked.file, found)
    instead, bracketed = {}, []
    for way, e in found.names:
        part, node, _ = way[-1]
        asks = steps.asked_level(part, node, id(node) in walk.casts)
        instead[id(e)] = [plain(init)]
        if level(init, asked.source) < asks:
            bracketed.append(e)
            if e is not loose:
                instead[id(e)] = [in_brackets(plain(init))]
    return shape(asked.program.units[asked.file], instead, found.statement), bracketed


def without_brackets(asked, at, loose):
    """The text in which one copy has no parentheses."""
    kept, order = steps.asked_level, []
    found = steps.local_at(asked, at)

    def one_loose(part, node, is_cast):
        order.append(None)
        way, e = found.names[len(order) - 1]
        return LOOSEST if e is loose else kept(part, node, is_cast)

    walk = steps.Inlining(asked.program, asked.file, found)
    steps.asked_level = one_loose
    try:
        return steps.spliced(asked.text, steps.removal_and_copies(asked, found, walk))
    finally:
        steps.asked_level = kept


def told(files, step):
    """Which class a step falls into."""
    try:
        if step["step"] == "extract_local":
            span = step["from"], step["to"]
            after, count = steps.extract(files, step["file"], *span, step["name"])
        else:
            after, count = steps.inline(files, step["file"], step["at"])
    except Refused as one:
        return "refused %d" % one.number
    if count:
        return "respelled"
    asked = steps.Asked(files, step["file"], (0,))
    asked.read()
    new = dict(after)[step["file"]]
    if step["step"] == "extract_local":
        wanted = extracted(asked, step["from"], step["to"], step["name"])
        return "as meant" if reads_as(new, wanted) else "OTHERWISE"
    wanted, bracketed = inlined(asked, step["at"])
    if not reads_as(new, wanted):
        return "OTHERWISE"
    for e in bracketed:
        if reads_as(without_brackets(asked, step["at"], e), inlined(asked, step["at"], e)[0]):
            return "TOO MANY"
    return "as meant, with parentheses" if bracketed else "as meant"


def a_step(files, pick):
    name, _ = pick(files)
    try:
        asked = steps.Asked(files, name, (0,))
        asked.read()
    except Refused:
        return None
    bodies = [member.body for _, member in asked.members()]
    values = [e for body in bodies for _, e in ways_of_list(body)]
    read = set(asked.notes.refs.values())
    locals = [at for at, d in asked.notes.declared.items() if d[0] == "local" and d in read]
    if locals and pick([True, False]):
        return {"step": "inline_local", "file": name, "at": pick(locals)}
    if not values:
        return None
    e, word = pick(values), pick(["t", "f", "A", "a"])
    return {"step": "extract_local", "file": name, "from": e.at, "to": e.end, "name": word}


class Operators:
    """Expressions of ints and truths, in which parentheses stand only where they have to."""

    def __init__(self, seed):
        self.pick = random.Random(seed).choice
        self.names = {"int": ["a", "b", "1"], "boolean": ["p", "q", "true"]}

    def value(self, type, depth):
        if depth == 0:
            return self.pick(self.names[type])
        ints = lambda: self.value("int", depth - 1)
        form = self.pick(["two", "two", "two", "sign", "brackets", "call"])
        if form == "brackets":
            return "(%s)" % self.value(type, depth - 1)
        if type == "int" and form == "call":
            return "k(%s)" % ints()
        if type == "int":
            return ints() + self.pick("+-*/%") + ints() if form == "two" else "-(%s)" % ints()
        if form == "two":
            return ints() + self.pick(["<", ">", "<=", ">=", "==", "!="]) + ints()
        truth = self.value(type, depth - 1), self.value(type, depth - 1)
        return self.pick(["&&", "||"]).join(truth) if form == "call" else "!(%s)" % truth[0]

    def program(self):
        type, result = self.pick(["int", "int", "boolean"]), self.pick(["int", "boolean"])
        init = self.value(type, self.pick([1, 1, 2]))
        self.names[type] = self.names[type] + ["t"] * 3
        params = "int a,int b,boolean p,boolean q"
        head = "class A{static int k(int x){return x;}%s m(%s)" % (result, params)
        return "%s{%s t=%s;return %s;}}" % (head, type, init, self.value(result, self.pick([2, 3])))


def inlines(first, count):
    counts = Counter()
    for seed in range(first, first + count):
        files = [("A.java", Operators(seed).program())]
        at = files[0][1].index(" t=") + 1
        found = told(files, {"step": "inline_local", "file": "A.java", "at": at})
        counts["inline_local", found] += 1
        if found.isupper():
            print(found, files)
    return counts


def main():
    words = argparse.ArgumentParser()
    words.add_argument("--inlines", action="store_true")
    words.add_argument("--first", type=int, default=0)
    words.add_argument("--programs", type=int, default=300)
    words.add_argument("--tries", type=int, default=8)
    asked = words.parse_args()
    counts = inlines(asked.first, asked.programs) if asked.inlines else Counter()
    for seed in () if asked.inlines else range(asked.first, asked.first + asked.programs):
        files, pick = RenamingMaker(seed).files(), random.Random(seed).choice
        for _ in range(asked.tries):
            step = a_step(files, pick)
            if step is not None:
                found = told(files, step)
                counts[step["step"], found] += 1
                if found.isupper():
                    print(found, step, files)
    for key, count in sorted(counts.items()):
        print(count, *key)


if __name__ == "__main__":
    main()

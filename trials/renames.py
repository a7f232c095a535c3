#!/usr/bin/env python3
"""Random renames in random sound programs, put to the second reading, javac and the built program.

renames.py [--jref BINARY] [--locals] [--javac] [--rare spellings|overloads]
    [--kinds KIND,..] [--first SEED] [--programs N] [--renames N] [--examples N]

In each program some words are renamed, each time in the program as it was: words of each kind
(`local`, `parameter`, `field`, `method`, `class`, `constructor`, `nothing`) as often, or of
those of --kinds; with --rare in programs in which rare spellings are likelier, some of them in a
package, some with comments between their tokens. With --jref the program's report of the rename
and of a show of each file behind it has to be what the reading says, and the stored texts too;
with --locals anything but a local is `Unbuilt`. With --javac the programs before and after are
compiled: it takes both; after a rename of a local the class files, without names of locals, are
the same (or differ in the class through which a field is named); and after any other they are
the same but for the names of what is renamed, each field and method under the class that
declares it. Differences are counted by class, with some examples of each.
"""
import argparse
import os
import random
import sys

from bindings import Differences, against_jref
from blanks import packed, spread
from compiled import against_javac
from hiding import HidingMaker, RareMaker
from programs import Maker
from reading.binding import notes_of
from reading.program import PRELUDE, is_class
from reading.renaming import PRELUDE_DECLS, Refused, sound, target_of
from reading.tokens import tokens_of
from sessions import rename_with_forms, show
from thinning import thinned

NAMES = ["a", "b", "c", "f", "g", "h", "m", "x", "d$", "A", "K", "Object", "goto", "1"]
KINDS = ["local", "parameter", "field", "method", "class", "constructor", "nothing"]
IN_FILES = {"int": "I", "boolean": "Z", "void": "V"}
OF_JAVA = {row.decl[1] for row in PRELUDE if row.decl[0] == "class"}


# programs and renames


def maker_of(seed, part, rare):
    if rare:
        return RareMaker(8 * seed + part, rare == "overloads")
    return Maker(8 * seed + part, wild=0.0) if seed % 4 == 0 else HidingMaker(8 * seed + part)


def sound_files(seed, rare):
    """A sound program, and its files."""
    for part in range(8):
        maker = maker_of(seed, part, rare)
        files = maker.files()
        files = files if isinstance(maker, HidingMaker) else thinned(files, maker.random, 9)
        if rare:
            files = (packed, spread, lambda files, _: files)[seed % 3](files, maker.random)
        try:
            return sound(files), files
        except Refused:
            pass
    return None, None


def kind_of(decl, is_constructor):
    """The kind of a word by what it declares or is bound to."""
    if decl is None or decl in PRELUDE_DECLS:
        return "nothing"
    if is_constructor:
        return "constructor"
    if decl[0] == "local" and decl[1][0] != "field" and decl[2] < len(decl[1][-1]):
        return "parameter"
    return decl[0]


class Words:
    """The words of a program, by kind, and its names."""

    def __init__(self, program, files, rare):
        self.program = program
        self.rare = rare
        self.by_kind = {kind: [] for kind in KINDS}
        self.classes, self.others = set(), set()
        self.used = {}  # the names that are used in each member
        for number, (name, text) in enumerate(files):
            notes = notes_of(program, number)
            means = {**notes.refs, **notes.declared}
            tokens, last = tokens_of(text)
            members = dict(self.members(program.units[number].classes, None))
            member = None
            for token, behind in zip(tokens, tokens[1:] + [last]):
                member = members.get(token.at, member)
                if token.kind == "word":
                    decl = means.get(token.at)
                    is_class = decl is not None and decl[0] == "class"
                    is_constructor = is_class and token.at in notes.declared and behind.text == "("
                    kind = kind_of(decl, is_constructor)
                    self.by_kind[kind].append((name, token, decl))
                    (self.classes if is_class else self.others).add(token.text)
                    if kind in ("class", "field"):
                        self.used.setdefault(member, set()).add(token.text)

    def members(self, trees, outer):
        """Where each member begins."""
        for tree in trees:
            key = (outer, tree.name.text)
            for member in tree.members:
                if member.kind == "inner":
                    yield from self.members([member.of], tree.name.text)
                else:
                    yield member.at, self.program.member_decl(key, member)

    def likely(self, decl):
        """Names under which a declaration may stand in the way of others, or they in its."""
        if decl is None or decl[0] == "class":
            return self.others - self.classes
        if decl[0] == "local":
            return self.used.get(decl[1], set())
        names = set()
        for row in self.program.rows:
            if row.decl[0] == decl[0] and self.are_near(row.decl[1], decl[1]):
                if self.parameters(row.decl) == self.parameters(decl):
                    names.add(row.decl[2])
        return names - self.own_fields(decl) if self.rare else names

    def parameters(self, decl):
        """How many parameters a method has, where that is to matter."""
        return len(decl[-1]) if self.rare == "overloads" and decl[0] == "method" else 0

    def own_fields(self, decl):
        """Names that a field can't get, as others of its class have them."""
        rows = self.program.rows if decl[0] == "field" else []
        return {row.decl[2] for row in rows if row.decl[:2] == decl[:2]}

    def are_near(self, a, b):
        """Whether one of two classes has the other above it, or around it or what is above it."""
        below = self.program.is_subclass
        around = lambda key: {above for one in self.program.enclosing(key)
                              for above in self.program.chain(one)}
        return a != b and (below(a, b) or below(b, a) or a in around(b) or b in around(a))

    def liked(self, kind, random):
        """The words of a kind; where rare spellings are to be, mostly of private classes, and of
        methods that take objects."""
        words = self.by_kind[kind]
        if self.rare and kind == "class" and random.random() < 0.7:
            return [one for one in words if self.program.has_word(one[2], "private")] or words
        if self.rare == "overloads" and kind == "method":
            return [one for one in words if any(map(is_class, one[2][-1]))] or words
        return words

    def step(self, random, kinds):
        kind = random.choice([kind for kind in kinds if self.by_kind[kind]] or ["nothing"])
        name, word, decl = random.choice(self.liked(kind, random))
        at = word.at + random.choice([0] * 8 + [len(word.text) - 1, len(word.text)])
        every = self.others if decl is None or decl[0] == "class" else self.others | self.classes
        near = sorted(random.choice([self.likely(decl)] * 3 + [every]) - {word.text})
        new = random.choice(near if near and random.random() < 0.9 else NAMES)
        return kind, {"step": "rename", "file": name, "at": at, "name": new}


def renames(first, programs, count, kinds, rare=None):
    """Sound programs with renames: the program, its files, the kind of word and the step."""
    for seed in range(first, first + programs):
        program, files = sound_files(seed, rare)
        if program is None:
            continue
        words = Words(program, files, rare)
        maker = random.Random(seed)
        for _ in range(count):
            yield (program, files, *words.step(maker, kinds))


# what is renamed, as class files have it


def in_files(program, key):
    """The name that a class has in class files (JLS 13.1)."""
    if key in OF_JAVA:
        return "java/lang/" + key[1]
    package = "".join(word + "/" for word in program.units[0].package or [])
    return package + ("" if key[0] is None else key[0] + "$") + key[1]


def descriptor(program, type):
    return IN_FILES.get(type) or "L%s;" % in_files(program, type)


def renamed_decls(program, files, step):
    number = [name for name, _ in files].index(step["file"])
    return target_of(program, number, step["at"], "", step["name"])[0]


def renamed_in_files(program, files, step):
    """What is renamed, as class files have it."""
    out = []
    for decl in renamed_decls(program, files, step):
        if decl[0] == "class":
            for key in program.parent:
                if key == decl[1] or key[0] is not None and (None, key[0]) == decl[1]:
                    new = (key[0], step["name"]) if key == decl[1] else (step["name"], key[1])
                    names = in_files(program, key), in_files(program, new)
                    out.append("class %s %s" % names)
        elif decl[0] == "field":
            out.append("field %s %s %s" % (in_files(program, decl[1]), decl[2], step["name"]))
        elif decl[0] == "method":
            types = "".join(descriptor(program, type) for type in decl[3])
            types = "(%s)%s" % (types, descriptor(program, program.row(decl).type))
            names = in_files(program, decl[1]), decl[2], types, step["name"]
            out.append("method %s %s %s %s" % names)
    return ",".join(out)


def ways_of_family(program, decls):
    """Where the methods that are renamed with the first one stand."""
    own, below = decls[0][1], program.is_subclass
    for _, key, *_ in decls[1:]:
        yield "below" if below(key, own) else "above" if below(own, key) else "beside"


def counted(seen, kind, reply, forms):
    seen.add(kind + ": " + (reply["refusal"].split()[0] if "refusal" in reply else "refactored"))
    if reply.get("respelled"):
        seen.add(kind + ": some respelled")
    for form, count in forms.items():
        seen.counts["respelled: %s, references" % form] += count
        seen.add("respelled: %s, renames" % form)


def main():
    words = argparse.ArgumentParser()
    words.add_argument("--jref")
    words.add_argument("--javac", action="store_true")
    words.add_argument("--locals", action="store_true")
    words.add_argument("--rare", choices=["spellings", "overloads"])
    words.add_argument("--kinds", default=",".join(KINDS))
    words.add_argument("--first", type=int, default=0)
    words.add_argument("--programs", type=int, default=1000)
    words.add_argument("--renames", type=int, default=4)
    words.add_argument("--examples", type=int, default=2)
    words = words.parse_args()
    seen = Differences(words.examples)
    cases, pairs = [], []
    kinds = words.kinds.split(",")
    asked = renames(words.first, words.programs, words.renames, kinds, words.rare)
    for program, files, kind, step in asked:
        after, reply, forms = rename_with_forms(files, step, words.locals)
        counted(seen, kind, reply, forms)
        if words.jref:
            now = files if after is None else after
            shows = [{"step": "show", "file": name, "what": "bindings"} for name, _ in files]
            replies = [reply] + [show(now, name) for name, _ in files]
            cases.append((files, [step] + shows, replies, now))
        if after is not None and kind == "method":
            for way in set(ways_of_family(program, renamed_decls(program, files, step))):
                seen.add("method: refactored with one %s it" % way)
        if words.javac and after is not None:
            is_local = kind in ("local", "parameter")
            names = "" if is_local else renamed_in_files(program, files, step)
            pairs.append((kind, names, files, after))
    if words.jref:
        against_jref(os.path.abspath(words.jref), cases, seen)
    if words.javac:
        against_javac(pairs, seen)
    seen.show()
    sys.exit(any("another" in key or " other" in key or "status" in key for key in seen.counts))


if __name__ == "__main__":
    main()

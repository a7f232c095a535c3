#!/usr/bin/env python3
"""Crossing by the definitions against given cases: crossings.py FILE.jsonl..

Takes the cases of the command run whose only step extracts or inlines a local and that were done,
or refused by 18, and prints each in which the first failing pair differs.
"""
import json
import sys

from reading.program import Program, decl_text
from reading.sites import Sites
from reading.ways import access_of, crossing, sites_of

PARTS = ("condition", "value", "init", "lock", "of", "on", "left", "right")


def parts(node):
    """The parts of a statement or expression, in text order."""
    for name in ("condition", "then", "other", "lock", "init", "value", "on", "of", "left", "right"):
        part = getattr(node, name, None)
        if hasattr(part, "kind"):
            yield part
    yield from getattr(node, "args", [])
    body = getattr(node, "body", None)
    if isinstance(body, list):
        yield from body
    elif body is not None:
        yield body


def within(node):
    yield node
    for part in parts(node):
        yield from within(part)


def lists_of(node):
    """The statement lists of a statement or member."""
    body = getattr(node, "body", None)
    if isinstance(body, list):
        yield body
    for part in parts(node):
        yield from lists_of(part)


def members(program, file):
    for tree in program.units[file].classes:
        for member in tree.members:
            yield from member.of.members if member.kind == "inner" else [member]


class Asked:
    def __init__(self, files, name):
        self.program = Program(files)
        self.name = name
        self.file = [file_name for file_name, _ in files].index(name)
        self.sites = Sites(self.program, self.file)

    def sites_before(self, statement, e):
        self.sites.marked = e
        found = sites_of(self.sites.statement(statement))
        self.sites.marked = None
        marks = [i for i, site in enumerate(found) if site[1] == "marked"]
        return found[: marks[0]]

    def pair(self, first, second):
        found = crossing(first, second, self.sites.kind_of_field)
        if found is None:
            return None
        i, j, kind = found
        texts = self.site_text(first[i]), self.site_text(second[j])
        return "LostDependence %s %s before %s" % (kind, *texts)

    def site_text(self, site):
        at, what, of = site
        place = "%s:%d " % (self.name, at)
        access = access_of(site, self.sites.kind_of_field)
        if access:
            return place + access[0] + (" " + decl_text(access[1]) if access[1] else "")
        if what in ("reads", "writes"):
            local = next(d for d in self.locals() if d[2] == of)
            return place + {"reads": "Read ", "writes": "Write "}[what] + decl_text(local)
        return place + {"checks": "Check", "calls": "Call", "loops": "Loop"}[what]

    def locals(self):
        known = [d for d in self.sites.notes.declared.values() if d[0] == "local"]
        return [d for d in known if d[1] == self.member_decl]

    def elements(self):
        for member in members(self.program, self.file):
            for body in lists_of(member):
                for i, s in enumerate(body):
                    yield member, body, i, s

    def enter(self, member):
        notes = self.sites.notes
        self.member_decl = next(
            p.member for e in within(member) for p in [notes.place_of.get(id(e))] if p
        )

    def extract(self, step):
        for member, body, i, s in sorted(self.elements(), key=lambda x: -x[3].at):
            for e in within(s):
                if e.at == step["from"] and e.end == step["to"] and id(e) in self.sites.notes.place_of:
                    self.enter(member)
                    moved = sites_of(self.sites.value(e))
                    return self.pair(self.sites_before(s, e), moved)

    def inline(self, step):
        notes = self.sites.notes
        at = step["at"]
        decls = dict(notes.declared)
        decls.update(notes.refs)
        word = max(p for p in decls if p <= at)
        for member, body, i, s in self.elements():
            if s.kind == "local" and notes.declared[s.name.at] == decls[word]:
                self.enter(member)
                return self.inline_at(body, i, s)

    def inline_at(self, body, i, s):
        notes, local = self.sites.notes, self.sites.notes.declared[s.name.at]
        moved, between = sites_of(self.sites.value(s.init)), []
        for other in body[i + 1 :]:
            for e in within(other):
                if e.kind == "name" and notes.refs.get(e.name.at) == local:
                    held = self.straight(other, e)
                    rest = self.sites_before(other, e) if held else sites_of(self.sites.statement(other))
                    found = self.pair(moved, between + rest)
                    if found:
                        return found
            between += sites_of(self.sites.statement(other))
        return None

    def straight(self, s, e):
        if s.kind in ("block", "sync") and any(e in within(x) for x in s.body):
            return any(e in within(x) and self.straight(x, e) for x in s.body)
        part = {"eval": "value", "local": "init", "return": "value", "if": "condition", "sync": "lock"}
        held = getattr(s, part[s.kind], None) if s.kind in part else None
        return held is not None and e in within(held) and not self.is_right(held, e)

    def is_right(self, top, e):
        for x in within(top):
            if x.kind == "binary" and x.op in ("&&", "||") and e in within(x.right):
                return True
        return False


def given_cases(path):
    with open(path, encoding="utf-8") as file:
        for line in file:
            case = json.loads(line)
            words = case["words"]
            if words[0] != "run" or "--out" in words or case["exit"] > 1 or case.get("doubt"):
                continue
            steps = json.loads(case["files"][words[1]])
            if not steps or steps[0]["step"] not in ("extract_local", "inline_local"):
                continue
            reply = json.loads(case["out"])[0]
            if reply["reply"] == "refactored" or reply.get("number") == 18:
                files = [(name, case["files"][name]) for name in words[2:]]
                yield files, steps[0], reply.get("refusal")


def main():
    for path in sys.argv[1:]:
        count = different = 0
        for files, step, wanted in given_cases(path):
            asked = Asked(files, step["file"])
            got = asked.extract(step) if step["step"] == "extract_local" else asked.inline(step)
            count += 1
            if got != wanted:
                different += 1
                print("%s\n%s\n  got    %s\n  wanted %s" % (step, files, got, wanted))
        print("%s: %d cases, %d differ" % (path, count, different))


if __name__ == "__main__":
    main()

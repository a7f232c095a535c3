#!/usr/bin/env python3
"""Which locals are used behind a piece, by the definitions, against given cases: used.py FILE.jsonl..

Takes the cases of the command run whose first step extracts a method and that were done, or refused
by 9 or 13. A statement piece gives back the locals that are written in it and used behind it: none,
the one that the new text assigns or declares at the call, or the first two of those that 9 tells. An
expression piece is refused by 13 where it writes such a local. Prints each case that differs.
"""
import json
import re
import sys

from crossings import lists_of, members, within
from reading.extracting import PieceSites, used_behind
from reading.program import Program


def used_in(files, step):
    """The member, and the numbers of the locals; None where no piece has just this span."""
    program = Program(files)
    file = [name for name, _ in files].index(step["file"])
    sites = PieceSites(program, file, None, None)
    span = step["from"], step["to"]
    for tree in program.units[file].classes:
        for decl, member in all_members(program, tree):
            for body in lists_of(member):
                begins = [i for i, s in enumerate(body) if s.at == span[0]]
                ends = [i for i, s in enumerate(body) if s.end == span[1]]
                if begins and ends:
                    sites.statements_in = body, begins[0], ends[-1] + 1
            for e in within(member) if sites.statements_in is None else ():
                if (e.at, getattr(e, "end", None)) == span and id(e) in sites.notes.place_of:
                    sites.expression = sites.expression or e
            is_list = sites.statements_in is not None
            if is_list or sites.expression is not None:
                way = sites.member(member, decl)
                return is_list, decl, used_behind(way, sites.piece), sites.notes
    return None


def all_members(program, tree, outer=None):
    for member in tree.members:
        if member.kind == "inner":
            yield from all_members(program, member.of, tree.name.text)
        else:
            yield program.member_decl((outer, tree.name.text), member), member


def name_of(notes, decl, number, text):
    for at, found in notes.declared.items():
        if found[0] == "local" and found[1] == decl and found[2] == number:
            return re.match(rb"[\w$]+", text[at:]).group().decode()
    return None


def given_back(step, text):
    """The local that the new text gives a value at the call, or None."""
    call = re.escape(step["name"])
    found = re.match(r"(?:(?:final )?[\w.$]+ )?([\w$]+) = %s\(" % call, text)
    return found.group(1) if found else None


def told_by(files, step, reply, stores):
    """What is told, and what the definitions give."""
    found = used_in(files, step)
    if found is None:
        return None
    is_list, decl, used, notes = found
    text = dict(files)[step["file"]].encode()
    if reply["reply"] == "refused":
        numbers = [int(n) for n in re.findall(r"#(\d+)", reply["refusal"])]
        if reply["number"] == 9:
            return numbers, used[:2]
        return numbers, used[:1] if not is_list else used
    if not is_list:
        return [], used
    new = stores[step["file"]].encode()[step["from"]:].decode()
    names = [name_of(notes, decl, number, text) for number in used]
    return [given_back(step, new)], names or [None]


def given_cases(path):
    with open(path, encoding="utf-8") as file:
        for line in file:
            case = json.loads(line)
            words = case["words"]
            if words[0] != "run" or "--out" in words or case["exit"] > 1 or case.get("doubt"):
                continue
            steps = json.loads(case["files"][words[1]])
            if not steps or steps[0]["step"] != "extract_method":
                continue
            replies = json.loads(case["out"])
            done = replies[0]["reply"] == "refactored" and len(steps) == 1
            if done or replies[0].get("number") in (9, 13):
                files = [(name, case["files"][name]) for name in words[2:]]
                yield files, steps[0], replies[0], case["stores"]


def main():
    for path in sys.argv[1:]:
        count = different = 0
        for files, step, reply, stores in given_cases(path):
            told = told_by(files, step, reply, stores)
            count += 1
            if told is None or told[0] != told[1]:
                different += 1
                print("%s\n%s\n%s\n  told, by the definitions: %s" % (step, files, reply, told))
        print("%s: %d cases, %d differ" % (path, count, different))


if __name__ == "__main__":
    main()

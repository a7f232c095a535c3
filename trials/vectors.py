#!/usr/bin/env python3
"""The second reading against given cases: vectors.py [FILE.jsonl..]

Without files: the programs of marked.txt, where «..» stands in front of each place at which a rule
is broken. With files: cases of the command rename, and of the command run with edits, renames,
undos, redos and shows of bindings. Prints each case that differs, and how many there were.
"""
import json
import os
import re
import sys

from reading.binding import RULES, lines
from reading.program import Program
from sessions import rename, replies

HERE = os.path.dirname(os.path.abspath(__file__))
STEPS = {"edit", "rename", "undo", "redo", "show"}


def marked(line):
    """A program without its marks, and the errors that they say."""
    text, errors = "", []
    for part in re.split("(«[^»]*»)", line):
        if part.startswith("«"):
            errors += [(len(text), RULES.index(rule)) for rule in part[1:-1].split(",")]
        else:
            text += part
    return text, ["%d error %s" % (at, RULES[rule]) for at, rule in sorted(errors)]


def marked_cases():
    with open(os.path.join(HERE, "marked.txt"), encoding="utf-8") as file:
        for line in file.read().split("\n"):
            if line:
                text, errors = marked(line)
                shown = lines(Program([("A.java", text)]), "A.java")
                yield text, [one for one in shown if " error " in one], errors


def renamed(files, words):
    """What the command rename prints."""
    step = {"file": words[1], "at": int(words[2]), "name": words[3]}
    after, reply = rename(files, step)
    if after is None:
        return "refused %d %s\n" % (reply["number"], reply["refusal"])
    return after[0][1]


def given_cases(path):
    with open(path, encoding="utf-8") as file:
        for line in file:
            case = json.loads(line)
            words = case["words"]
            if case["exit"] > 1 or "--out" in words or case.get("doubt"):
                continue
            if words[0] == "rename":
                files = [(words[1], case["files"][words[1]])]
                yield (files, words), renamed(files, words), case["out"]
            if words[0] != "run":
                continue
            steps = json.loads(case["files"][words[1]])
            if any(s["step"] not in STEPS or s.get("what") == "dependences" for s in steps):
                continue
            files = [(name, case["files"][name]) for name in words[2:]]
            got, _ = replies(files, steps)
            yield (files, steps), got, json.loads(case["out"])


def main():
    for path in sys.argv[1:] or [None]:
        count = different = 0
        for case, got, wanted in given_cases(path) if path else marked_cases():
            count += 1
            if got != wanted:
                different += 1
                print("%s\n  got    %s\n  wanted %s" % (case, got, wanted))
        print("%s: %d cases, %d differ" % (path or "marked.txt", count, different))


main()

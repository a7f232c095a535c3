#!/usr/bin/env python3
"""Dependences by the definitions against given cases: dependences.py FILE.jsonl..

Takes the shows of dependences of the command run, and prints each that differs.
"""
import json
import sys

from reading.program import Program, SourceFault
from reading.sites import lines


CHANGES = {"edited", "refactored", "undone", "redone"}


def given_cases(path):
    """Each show of dependences whose texts are those given or those stored at the end."""
    with open(path, encoding="utf-8") as file:
        for line in file:
            case = json.loads(line)
            words = case["words"]
            if words[0] != "run" or "--out" in words or case["exit"] > 1 or case.get("doubt"):
                continue
            steps = json.loads(case["files"][words[1]])
            replies = json.loads(case["out"])
            changes = [i for i, reply in enumerate(replies) if reply["reply"] in CHANGES]
            for i, (step, reply) in enumerate(zip(steps, replies)):
                if step["step"] != "show" or step["what"] != "dependences" or "lines" not in reply:
                    continue
                texts = {name: case["files"][name] for name in words[2:]}
                if changes and changes[0] < i:
                    if changes[-1] > i:
                        continue
                    texts.update(case["stores"])
                yield case.get("note"), list(texts.items()), step["file"], reply


def told(files, name):
    try:
        return lines(Program(files), name)
    except SourceFault as fault:
        return str(fault)


def main():
    for path in sys.argv[1:]:
        count = different = 0
        for note, files, name, reply in given_cases(path):
            count += 1
            got = told(files, name)
            if got != reply.get("lines"):
                different += 1
                print("%s\n%s\n  got    %s\n  wanted %s" % (note, files, got, reply))
        print("%s: %d cases, %d differ" % (path, count, different))


if __name__ == "__main__":
    main()

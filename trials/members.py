#!/usr/bin/env python3
"""Refactorings of members by the definitions against given cases: members.py FILE.jsonl..

Takes the cases of the command run whose only step moves, extracts or inlines a method, or pulls a member up.
Prints each in which the reply or the stored text differs.
"""
import json
import sys

from reading.extracting import extract_method
from reading.inlining import inline_method
from reading.members import move_instance, move_static, pull_up
from reading.renaming import Refused

STEPS = {
    "move_static": lambda files, s: move_static(files, s["file"], s["at"], s["class"]),
    "move_instance": lambda files, s: move_instance(
        files, s["file"], s["at"], s["class"], s["name"]
    ),
    "extract_method": lambda files, s: extract_method(
        files, s["file"], s["from"], s["to"], s["name"]
    ),
    "inline_method": lambda files, s: inline_method(files, s["file"], s["at"]),
    "pull_up": lambda files, s: pull_up(files, s["file"], s["at"]),
}


def reply_of(files, step):
    """The reply, and the files that it changes."""
    try:
        after, count = STEPS[step["step"]](files, step)
    except Refused as one:
        return {"number": one.number, "refusal": one.text, "reply": "refused"}, {}
    changed = {name: new for (name, new), (_, old) in zip(after, files) if new != old}
    return {"files": list(changed), "reply": "refactored", "respelled": count}, changed


def given_cases(path):
    with open(path, encoding="utf-8") as file:
        for line in file:
            case = json.loads(line)
            words = case["words"]
            if words[0] != "run" or "--out" in words or case["exit"] > 1 or case.get("doubt"):
                continue
            try:
                steps = json.loads(case["files"][words[1]])
            except ValueError:
                continue
            if len(steps) == 1 and steps[0].get("step") in STEPS:
                files = [(name, case["files"][name]) for name in words[2:]]
                yield case.get("note"), files, steps[0], json.loads(case["out"])[0], case["stores"]


def main():
    for path in sys.argv[1:]:
        count = different = 0
        for note, files, step, reply, stores in given_cases(path):
            got = reply_of(files, step)
            count += 1
            if got != (reply, stores):
                different += 1
                told = (note, step, files, got, (reply, stores))
                print("%s\n%s\n%s\n  got    %s\n  wanted %s" % told)
        print("%s: %d cases, %d differ" % (path, count, different))


if __name__ == "__main__":
    main()

#!/usr/bin/env python3
"""Extract local by the built program in random programs, and what it keeps:
kept.py JREF [--first SEED] [--programs N] [--tries N]

Each reply and new text has to be the reading's. Of each step that is done, shows of bindings in
front of it and behind it have to name the same locals, fields, methods and constructors, as often:
locals of the member from the new one's number on have one more, and the new one is named once more.
An undo and a redo bring each text back. Classes are left out, since spellings drop and put them.
Prints how many steps fell into each class.
"""
import argparse
import json
import random
import re
import subprocess
import tempfile
from collections import Counter
from pathlib import Path

from reading import locals as steps
from reading.pieces import ways_of_list
from reading.program import decl_text
from reading.renaming import Refused
from sessions import RenamingMaker


def run(jref, files, script):
    """The replies to a script, and the texts that are there behind it."""
    with tempfile.TemporaryDirectory() as folder:
        for name, text in [*files, ("s.json", json.dumps(script))]:
            (Path(folder) / name).write_bytes(text.encode("utf-8"))
        words = [jref, "run", "s.json", *(name for name, _ in files)]
        out = subprocess.run(words, cwd=folder, capture_output=True, check=False).stdout
        return json.loads(out), [(n, (Path(folder) / n).read_bytes().decode("utf-8")) for n, _ in files]


def wanted(files, step):
    try:
        after, count = steps.extract(files, step["file"], step["from"], step["to"], step["name"])
    except Refused as one:
        return {"number": one.number, "refusal": one.text, "reply": "refused"}, files
    changed = [name for (name, new), (_, old) in zip(after, files) if new != old]
    return {"files": changed, "reply": "refactored", "respelled": count}, after


def one_higher(decl, member, number):
    """A declaration's text in the new program."""
    found = re.match(r"(.*)#(\d+)$", decl)
    if found and found[1] == member and int(found[2]) >= number:
        return "%s#%d" % (member, int(found[2]) + 1)
    return decl


def named(shows, classes):
    """How often each declaration that is no class is named."""
    lines = [line.split(" ", 2)[2] for show in shows for line in show["lines"]]
    return Counter(decl for decl in lines if decl not in classes)


def told(jref, files, step):
    shows = [{"step": "show", "file": name, "what": "bindings"} for name, _ in files]
    script = [*shows, step, *shows, {"step": "undo"}, *shows, {"step": "redo"}]
    replies, texts = run(jref, files, script)
    count = len(files)
    reply, after = wanted(files, step)
    if replies[count] != reply or texts != after:
        return "DIFFERENT"
    if reply["reply"] == "refused":
        return reply["refusal"].split(" ")[0]
    asked = steps.Asked(files, step["file"], (step["from"], step["to"]))
    asked.read()
    found = steps.value_at(asked, step["from"], step["to"])
    member = decl_text(found.member)
    classes = {decl_text(("class", key)) for key, _, _ in asked.program.classes}
    classes |= {"Object", "String", "Class", "Thread"}
    old = named(replies[:count], classes)
    new = named(replies[count + 1 : 2 * count + 1], classes)
    moved = Counter({"%s#%d" % (member, found.number): 1})
    for decl, times in old.items():
        moved[one_higher(decl, member, found.number)] += times
    back = replies[2 * count + 2 : 3 * count + 2] == replies[:count]
    return "kept" if moved == new and back else "NOT KEPT"


def main():
    words = argparse.ArgumentParser()
    words.add_argument("jref")
    words.add_argument("--first", type=int, default=0)
    words.add_argument("--programs", type=int, default=300)
    words.add_argument("--tries", type=int, default=4)
    asked, counts = words.parse_args(), Counter()
    for seed in range(asked.first, asked.first + asked.programs):
        files, pick = RenamingMaker(seed).files(), random.Random(seed).choice
        for _ in range(asked.tries):
            name, _ = pick(files)
            try:
                read = steps.Asked(files, name, (0,))
                read.read()
            except Refused:
                break
            values = [e for _, member in read.members() for _, e in ways_of_list(member.body)]
            if not values:
                continue
            e, word = pick(values), pick(["t", "f", "A", "a"])
            step = {"step": "extract_local", "file": name, "from": e.at, "to": e.end, "name": word}
            found = told(asked.jref, files, step)
            counts[found] += 1
            if found.isupper():
                print(found, step, files)
    for key, count in sorted(counts.items()):
        print(count, key)


if __name__ == "__main__":
    main()

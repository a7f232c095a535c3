#!/usr/bin/env python3
"""Random programs, put to a second reading of the rules, to javac and to the built program.

bindings.py [--jref BINARY] [--javac]
    [--kind bindings|dependences|declarations|sessions|renamings] [--first SEED] [--programs N]
    [--examples N]

The reading says for each file its lines, or the fault of the program. With --jref the program's
report has to be that, byte for byte. With --javac each program is sound here exactly where javac
takes it, and each reference is bound as javac binds it, but for what `KNOWN` lists. Differences
are counted by class, with some examples of each.
"""
import argparse
import collections
import json
import os
import subprocess
import sys
import tempfile

from declarations import DeclarationMaker
from programs import Maker
from reading.binding import first_error, lines
from reading.program import Program, SourceFault
from reading.sites import lines as dependence_lines
from sessions import RenamingMaker, SessionMaker, replies

HERE = os.path.dirname(os.path.abspath(__file__))

# Refused here by a rule of the profile, where Java has none: what the rule's name is, or the
# fault's.
REFUSED_HERE = {
    "ConstantCondition": "a condition over final variables or literals",
    "Forward": "a local or field named in its own initializer, or in front of its declaration",
    "StaticThroughValue": "a static member through a value",
    "Override": "a result that differs",
    "ObjectMethod": "a method of Object's",
    "Operands": "a text joined by +, or values in boxes",
    "TypeMismatch": "a value in a box",
    "BadCast": "a value in a box",
    "StaticInit": "a static field's initializer",
    "MemberTypeName": "a member class with the name of a field or method",
    "PreludeName": "a class with a name of the prelude",
    "NoSuperclass": "a class at the top that extends a member class",
    "FinalAssigned": "(this).f",
    "PackageDiffers": "several packages",
    "BadModifiers": "a member class without static",
    "NoTy": "the type Runnable",
}
# Taken here, where Java has a rule that the profile leaves out: javac's code.
REFUSED_BY_JAVAC = {
    "var.might.already.be.assigned": "a final field assigned twice",
    "var.might.be.assigned.in.loop": "a final field assigned in a loop",
    "var.might.not.have.been.initialized": "a final field that isn't assigned",
    "var.not.initialized.in.default.constructor": "a final field that isn't assigned",
    "not.def.access.class.intf.cant.access": "a member of a value of a private class",
    "incomparable.types": "two class literals compared",
}


def lines_or_fault(files, lines=lines):
    """The lines of each file, of bindings or other ones, or the first fault's text."""
    try:
        program = Program(files)
    except SourceFault as fault:
        return None, "SourceError %s:%d %s" % (files[fault.file][0], fault.at, fault.kind)
    return program, [lines(program, name) for name, _ in files]


def shows(files, what="bindings"):
    """The script that shows this of each file, and the replies that are wanted."""
    program, shown = lines_or_fault(files, lines if what == "bindings" else dependence_lines)
    if program is None:
        refused = {"number": 4, "refusal": shown, "reply": "refused"}
        replies = [refused for _ in files]
    else:
        replies = [{"lines": one, "reply": "shown"} for one in shown]
    return [{"step": "show", "file": name, "what": what} for name, _ in files], replies


def report(replies):
    return json.dumps(replies, separators=(",", ":"), ensure_ascii=False) + "\n"


def run_jref(binary, folder, files, steps):
    """The status, the report and the texts that were stored."""
    out = os.path.join(folder, "out")
    for name in os.listdir(out):
        os.remove(os.path.join(out, name))
    for name, text in files:
        with open(os.path.join(folder, name), "w", encoding="utf-8") as file:
            file.write(text)
    with open(os.path.join(folder, "s.json"), "w", encoding="utf-8") as file:
        json.dump(steps, file)
    words = [binary, "run", "--out", "out", "s.json"] + [name for name, _ in files]
    done = subprocess.run(
        words, cwd=folder, stdin=subprocess.DEVNULL, capture_output=True, timeout=60
    )
    stored = []
    for name in sorted(os.listdir(out)):
        with open(os.path.join(out, name), encoding="utf-8", newline="") as file:
            stored.append((name, file.read()))
    return done.returncode, done.stdout.decode("utf-8", "replace"), stored


class Differences:
    def __init__(self, examples):
        self.counts = collections.Counter()
        self.examples = examples

    def add(self, key, example=None):
        self.counts[key] += 1
        if example is not None and self.counts[key] <= self.examples:
            print("%s\n  %s" % (key, example))

    def show(self):
        for key, count in self.counts.most_common():
            print(count, key)


def against_jref(binary, programs, seen):
    with tempfile.TemporaryDirectory() as folder:
        os.mkdir(os.path.join(folder, "out"))
        for files, steps, wanted, after in programs:
            status, out, stored = run_jref(binary, folder, files, steps)
            refused = any(reply["reply"] == "refused" for reply in wanted)
            if status != int(refused):
                seen.add("jref: status %d, wanted %d" % (status, refused), (files, steps))
            elif out != report(wanted):
                example = "%s %s\n  got    %s  wanted %s" % (files, steps, out, report(wanted))
                seen.add("jref: another report", example)
            elif stored != sorted(set(after) - set(files)):
                seen.add("jref: other texts stored", "%s %s\n  %s" % (files, steps, stored))
            else:
                seen.add("jref: the same")


def javac_lines(source, programs, options=()):
    """What a program of this folder says of each program: a list of files, or a word and one."""
    with tempfile.TemporaryDirectory() as folder:
        path = os.path.join(folder, "programs")
        with open(path, "w", encoding="utf-8") as file:
            for files in programs:
                word, files = files if isinstance(files, tuple) else (None, files)
                parts = [part for one in files for part in one]
                file.write("\t".join(([] if word is None else [word]) + parts) + "\n")
        done = subprocess.run(
            ["java", "-Xmx600m", "-XX:ActiveProcessorCount=1", "-XX:TieredStopAtLevel=1", *options,
             os.path.join(HERE, source), path],
            capture_output=True, text=True, check=True,
        )
        return done.stdout.rstrip("\n").split("\n")


def is_known(rules, files):
    """Whether one of the rules or faults is such that Java has none like it."""
    if rules == {"NoTy"}:
        return any("Runnable" in text for _, text in files)
    return bool(rules & set(REFUSED_HERE))


def against_javac(programs, seen):
    for files, verdict in zip(programs, javac_lines("Verdicts.java", programs)):
        program, shown = lines_or_fault(files)
        parts = verdict.split("\t")
        if program is None:
            rules = {shown.split()[-1]}
        else:
            rules = {line.split()[2] for one in shown for line in one if " error " in line}
        if parts[0] == "refused":
            codes = {part.split(" ", 1)[1] for part in parts[1:]}
            if rules:
                seen.add("both refuse")
            elif codes <= set(REFUSED_BY_JAVAC):
                why = sorted({REFUSED_BY_JAVAC[code] for code in codes})
                seen.add("known, javac alone: " + ", ".join(why))
            else:
                example = "%s\n  %s" % (files, parts[1:])
                seen.add("javac alone: " + ", ".join(sorted(codes)), example)
        elif is_known(rules, files):
            seen.add("known, here alone: " + ", ".join(sorted(rules)))
        elif rules:
            seen.add("here alone: " + ", ".join(sorted(rules)), "%s\n  %s" % (files, shown))
        else:
            found = [[]]
            for part in parts[1:]:
                if part == "FILE":
                    found.append([])
                else:
                    found[-1].append(part)
            if found[1:] == shown:
                seen.add("both take it, with the same references")
            else:
                both = zip(found[1:], shown)
                lost = [(sorted(set(a) - set(b)), sorted(set(b) - set(a))) for a, b in both]
                example = "%s\n  javac's alone, the reading's alone: %s" % (files, lost)
                seen.add("other references", example)


def main():
    words = argparse.ArgumentParser()
    words.add_argument("--jref")
    words.add_argument("--javac", action="store_true")
    kinds = ["bindings", "dependences", "declarations", "sessions", "renamings"]
    words.add_argument("--kind", default="bindings", choices=kinds)
    words.add_argument("--first", type=int, default=0)
    words.add_argument("--programs", type=int, default=1000)
    words.add_argument("--examples", type=int, default=2)
    words = words.parse_args()
    seen = Differences(words.examples)
    seeds = range(words.first, words.first + words.programs)
    if words.kind in ("sessions", "renamings"):
        maker = SessionMaker if words.kind == "sessions" else RenamingMaker
        programs = [maker(seed).session() for seed in seeds]
        wanted = [(files, steps, *replies(files, steps)) for files, steps in programs]
    else:
        maker = DeclarationMaker if words.kind == "declarations" else Maker
        what = "dependences" if words.kind == "dependences" else "bindings"
        programs = [maker(seed).files() for seed in seeds]
        wanted = [(files, *shows(files, what), files) for files in programs]
    if words.jref:
        against_jref(os.path.abspath(words.jref), wanted, seen)
    if words.javac and words.kind not in ("sessions", "renamings"):
        against_javac(programs, seen)
    seen.show()
    sys.exit(any(not key.startswith(("jref: the same", "both", "known")) for key in seen.counts))


if __name__ == "__main__":
    main()

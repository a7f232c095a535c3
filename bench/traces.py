#!/usr/bin/env python3
"""traces.py: runs the programs of jr_code_cases under `java`, and prints what each does.

Each text of crates/jr_code_cases/specs/Cases.antt is compiled with a Main that calls its `go`; Traces.java runs it under the
debugger's interface. Accesses of fields are shown with their values, and how `go` ends; monitors and allocations are not.
"""
import os
import re
import subprocess
import tempfile

HERE = os.path.dirname(os.path.abspath(__file__))
MAIN = "\nclass Main { public static void main(String[] words) { %s.go(); } }\n"


def texts():
    with open(f"{HERE}/../crates/jr_code_cases/specs/Cases.antt", encoding="utf-8") as specs:
        found = re.findall(r"^text_of_(\w+) =\s+((?:codes \".*\"\s+(?:\+\+\s+)?)+)", specs.read(), re.MULTILINE)
    for name, said in found:
        parts = re.findall(r"codes \"((?:[^\"\\]|\\.)*)\"", said)
        yield name, "".join(parts).replace('\\"', '"')


def run(*words):
    return subprocess.run(words, capture_output=True, text=True, check=False).stdout


with tempfile.TemporaryDirectory() as room:
    run("javac", "-d", f"{room}/tool", f"{HERE}/Traces.java")
    for name, text in texts():
        os.makedirs(f"{room}/{name}")
        with open(f"{room}/{name}/Main.java", "w", encoding="utf-8") as main:
            main.write(text + MAIN % ("B" if "class B" in text else "A"))
        run("javac", "-g", "-d", f"{room}/{name}", f"{room}/{name}/Main.java")
        print(name, run("java", "--add-modules", "jdk.jdi", "-cp", f"{room}/tool", "Traces", f"{room}/{name}"), sep="\n")

#!/usr/bin/env python3
"""How long renames take, outside the gate: bench/renames.py JREF, where JREF is the built program.

Each row is a whole process, the least of three: milliseconds of a processor, the user's and the system's, and the most
memory in MiB. What is stored is compared with what replacing the word gives, and where it differs that is told. Files
are classes with fields, locals and calls of each other, so that every file mentions another one, of some 2,600 bytes, or
of some 60 where each file gets a step; a row is taken at a quarter, a half and the whole of its size.
"""
import json
import os
import re
import resource
import subprocess
import sys
import tempfile

SIZE = 256


def small_class(number, of):
    return f"class A{number}{{int f;int m(A{(number + 1) % of} b){{int c=b.f+f;return c;}}}}"


def class_text(number, of):
    """A class whose methods use its own field and the next class's."""
    other = f"A{(number + 1) % of}"
    text = [f"class A{number}{{int f;{other} g;"]
    for member in range(24):
        text.append(f"int m{member}(int a,{other} b){{int c=a+b.f*{member};while(c<a){{c=c+this.f;}}if(c<a)return c-1;")
        text.append(f"f=b.m{member}(a,b.g);c=c+f;return c;}}")
    return "".join(text) + "}"


def at(text, word, behind=""):
    return text.encode().index((behind + word).encode()) + len(behind.encode())


def renames(files, word, behind, new):
    """One step for each of the files: where the word stands behind another one."""
    return [{"step": "rename", "file": name, "at": at(text, word, behind), "name": new} for name, text in files.items()]


def classes(count, make=class_text):
    return {f"A{number}.java": make(number, count) for number in range(count)}


def replaced(text, word, new, until=""):
    """The word everywhere, or up to where a text first ends."""
    end = text.index(until) + len(until) if until else len(text)
    return re.sub(rf"\b{word}\b", new, text[:end]) + text[end:]


def in_all(files, word, new):
    return {name: replaced(text, word, new) for name, text in files.items()}


def one_class(count):
    files = classes(1)
    wanted = {name: replaced(text, "c", "d", "return c;}") for name, text in files.items()}
    return files, renames(files, "c", "{int ", "d"), wanted


def first_of_many(count):
    files = classes(count)
    name, text = next(iter(files.items()))
    wanted = {**files, name: replaced(text, "c", "d", "return c;}")}
    return files, renames(files, "c", "{int ", "d")[:1], wanted


def a_local_in_each(count):
    files = classes(count, small_class)
    return files, renames(files, "c", "{int ", "d"), in_all(files, "c", "d")


def a_field_in_each(count):
    files = classes(count, small_class)
    return files, renames(files, "f", "{int ", "h"), in_all(files, "f", "h")


def generated(count, number=7):
    """Files as the specification generates them: classes of ten fields and ten methods."""
    files, state = {}, number
    for k in range(count):
        text = f"class G{k} {{ " + "".join(f"int f{j}; " for j in range(10))
        for j in range(10):
            text += f"int m{j}(int a) {{ int t = a + {state % 10}; f{j} = t; return f{j}; }} "
            state = (state * 5 + 3) % 2**64
        files[f"G{k}.java"] = text + "}"
    return files


def a_generated_local_in_each(count):
    files = generated(count)
    wanted = {name: replaced(text, "t", "u", "return f0;") for name, text in files.items()}
    return files, renames(files, "t", "{ int ", "u"), wanted


def a_generated_field_in_each(count):
    files = generated(count)
    return files, renames(files, "f0", "{ int ", "value"), in_all(files, "f0", "value")


def a_class_in_all(count):
    files = {"P.java": "class P{int x;P p;P(){super();}static int s(P p){return p.x;}}"}
    for number in range(count - 1):
        files[f"A{number}.java"] = class_text(number, count - 1)[:-1] + "P q;int u(P p){return P.s((P)p)+new P().x;}}"
    return files, [{"step": "rename", "file": "P.java", "at": 6, "name": "Q"}], in_all(files, "P", "Q")


def many_references(count):
    text = "class A{int m(int b){int a=b;" + "a=a+b;" * (2500 * count // SIZE) + "return a;}}"
    files = {"A.java": text}
    return files, [{"step": "rename", "file": "A.java", "at": at(text, "a", "{int "), "name": "c"}], in_all(files, "a", "c")


def a_family(count):
    number = 2000 * count // SIZE
    text = "class A0{int m(){return 0;}}" + "".join(f"class A{n} extends A{n // 2}{{int m(){{return {n};}}}}" for n in range(1, number))
    files = {"A.java": text}
    return files, [{"step": "rename", "file": "A.java", "at": at(text, "m", "{int "), "name": "k"}], in_all(files, "m", "k")


ROWS = {
    "a local in a file of one class": one_class,
    "a local in the first of 256 files": first_of_many,
    "a local in each of 256 files, 256 steps": a_local_in_each,
    "a field in each of 256 files, 256 steps": a_field_in_each,
    "a local in each of 256 generated files, 256 steps": a_generated_local_in_each,
    "a field in each of 256 generated files, 256 steps": a_generated_field_in_each,
    "a class that 256 files use": a_class_in_all,
    "a local with 5,000 references": many_references,
    "a method of 2,000 classes": a_family,
}


def stored(room, name, text):
    """What a file holds in the end: it is stored only where it differs."""
    path = f"{room}/out/{name}"
    if not os.path.exists(path):
        return text
    with open(path, encoding="utf-8") as file:
        return file.read()


def measure(jref, files, steps, wanted):
    """Milliseconds of a processor, MiB, how many steps were done, and whether the files hold what is wanted."""
    with tempfile.TemporaryDirectory() as room:
        for name, text in files.items():
            with open(f"{room}/{name}", "w", encoding="utf-8") as file:
                file.write(text)
        with open(f"{room}/s.json", "w", encoding="utf-8") as file:
            json.dump(steps, file)
        os.mkdir(f"{room}/out")
        with open(f"{room}/report", "wb") as report:
            ran = subprocess.Popen([jref, "run", "--out", "out", "s.json", *files], cwd=room, stdout=report)
            _, status, used = os.wait4(ran.pid, 0)
            ran.returncode = os.waitstatus_to_exitcode(status)
        with open(f"{room}/report", encoding="utf-8") as report:
            done = sum(reply["reply"] == "refactored" for reply in json.load(report)) if ran.returncode in (0, 1) else 0
        same = all(stored(room, name, text) == wanted[name] for name, text in files.items())
    return round(1000 * (used.ru_utime + used.ru_stime)), used.ru_maxrss // 1024, done, same


def measure_rows(jref, rows):
    """Prints a row for each: bytes, steps done, milliseconds at three sizes, MiB."""
    print("| what | bytes | steps done | ms at a quarter | a half | the whole | MiB |\n|---|---|---|---|---|---|---|")
    for what, make in rows.items():
        took = []
        for count in (SIZE // 4, SIZE // 2, SIZE):
            files, steps, wanted = make(count)
            runs = [measure(jref, files, steps, wanted) for _ in range(3)]
            if not all(run[3] for run in runs):
                print(f"{what}: other texts than wanted, at {count} of {SIZE}")
            took.append(min(runs))
        size = sum(len(text.encode()) for text in files.values())
        print(f"| {what} | {size} | {took[-1][2]} of {len(steps)} | {took[0][0]} | {took[1][0]} | {took[2][0]} | {took[2][1]} |", flush=True)


if __name__ == "__main__":
    if len(sys.argv) != 2:
        sys.exit(__doc__)
    measure_rows(os.path.realpath(sys.argv[1]), ROWS)

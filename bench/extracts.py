#!/usr/bin/env python3
"""How long extract local takes, outside the gate: bench/extracts.py JREF, where JREF is the built program.

Each row is a whole process, the least of three: milliseconds of a processor, the user's and the system's, and the most
memory in MiB; it is taken at a quarter, a half and the whole of its size. What is stored is compared with what putting
the declaration and the name into the text gives, and where it differs that is told.
"""
import os
import sys

sys.dont_write_bytecode = True

from renames import SIZE, at, classes, class_text, measure_rows


def extracted(files, name, statement, expression):
    """One step for the expression of the statement, which the text has once in front of all others of it, and the texts then."""
    text = files[name]
    start = at(text, statement)
    first = start + statement.index(expression)
    step = {"step": "extract_local", "file": name, "from": first, "to": first + len(expression), "name": "made"}
    new = f"int made = {expression}; " + statement.replace(expression, "made", 1)
    return files, [step], {**files, name: text[:start] + new + text[start + len(statement):]}


def one_class(count):
    return extracted(classes(1), "A0.java", "c=c+this.f;", "this.f")


def large_class(number, of):
    """A class of some 31 KiB."""
    return class_text(number, of)[:-1] + "".join(f"int n{k}(int a){{int c=a*{k};f=c+f;return f-c;}}" for k in range(650)) + "}"


def first_of_many(count):
    return extracted(classes(count, large_class), "A0.java", "c=c+this.f;", "this.f")


def long_member(count, place):
    number = 174000 * count // SIZE
    text = ["a=a+b;"] * number
    text[number * place // 4] = "a=a-b;"
    return extracted({"A.java": "class A{int m(int a,int b){" + "".join(text) + "return a;}}"}, "A.java", "a=a-b;", "a-b")


def many_expressions(count):
    number = 11300 * count // SIZE
    text = "class A{int f;int m(int a){" + "f=a*(a+1)-a*(a+2)+a*(a+3)-a*(a+4)+a*(a+5)-a*(a+6)+a*(a+7)-a*(a+8)+a*(a+9)-a*(a+10)+a*(a+11);" * number + "f=a-9;return a;}}"
    return extracted({"A.java": text}, "A.java", "f=a-9;", "a-9")


ROWS = {
    "in a file of one class": one_class,
    "in the first of 256 files, 8 MiB": first_of_many,
    "in the middle of a member of 1 MiB": lambda count: long_member(count, 2),
    "at the beginning of a member of 1 MiB": lambda count: long_member(count, 0),
    "at the end of a member of 1 MiB with long statements": many_expressions,
}


if __name__ == "__main__":
    if len(sys.argv) != 2:
        sys.exit(__doc__)
    measure_rows(os.path.realpath(sys.argv[1]), ROWS)

#!/usr/bin/env python3
"""What a check that kept its work spent its time on: bench/kept.py FOLDER [HOW MANY [WORD]].

FOLDER is a crate's `out/incremental`. A check writes each module as it ends with it, so the time between a file and the
one before it is what its module took; it counts for the function that the module belongs to. That is the clock's
time, of one process where the check had one job, and says nothing where a check was added to an earlier one. Seconds,
and the size of what the function's steps (`Lts`) keep. With WORD, each module that has it in its name (`.Tie`) by itself.
"""
import collections
import glob
import os
import re
import sys


def modules(folder):
    files = glob.glob(f"{folder}/*/*.oantt")
    ages = sorted((os.stat(it).st_mtime_ns, it) for it in files)
    before = ages[0][0] if ages else 0
    for age, file in ages:
        words = re.sub(r"^Rattle-\w+?-(specs|proofs)?\.?", "", os.path.basename(file)[: -len(".oantt")]).split(".")
        if words[-1][:1].isupper():
            words.pop()
        function = ".".join(it for it in words if it not in ("contracts", "declared"))
        yield function or "(the crate)", (age - before) / 1e9, file
        before = age


def main():
    if len(sys.argv) not in (2, 3, 4):
        sys.exit(__doc__)
    seconds, steps = collections.Counter(), collections.Counter()
    for function, took, file in modules(sys.argv[1]):
        if len(sys.argv) == 4:
            if sys.argv[3] not in os.path.basename(file):
                continue
            function = os.path.basename(file).partition("proofs.")[2] or os.path.basename(file)
        seconds[function] += took
        steps[function] += os.path.getsize(file) if ".Lts" in file else 0
    for function, took in seconds.most_common(int(sys.argv[2]) if len(sys.argv) > 2 else 20):
        print(f"{took:7.1f} s {steps[function] / 1e6:6.1f} MB  {function}")
    print(f"{sum(seconds.values()):7.1f} s in all")


main()

#!/usr/bin/env python3
"""beside.py WORK PROGRAM PROGRAM..: programs by turns over an input of $ROOM/work (gf16), ms of a processor: least, middle
and most of $N runs (8). What one of them takes hangs on the minute; by turns they can be compared."""
import os
import statistics
import subprocess
import sys

work, programs = sys.argv[1], [os.path.realpath(it) for it in sys.argv[2:]]
folder = f"{os.environ['ROOM']}/work/{work}"
files = open(f"{folder}/args").read().split()
spent = {it: [] for it in programs}
for _ in range(int(os.environ.get("N", "8"))):
    for it in programs:
        run = subprocess.Popen([it, "run", "--out", "out", "s.json", *files], cwd=folder, stdout=subprocess.DEVNULL)
        used = os.wait4(run.pid, 0)[2]
        spent[it].append(1000 * (used.ru_utime + used.ru_stime))
for it in programs:
    print(work, os.path.basename(it), "%.0f %.0f %.0f" % (min(spent[it]), statistics.median(spent[it]), max(spent[it])))

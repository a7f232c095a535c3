#!/usr/bin/env python3
"""What the gate takes, by crate, at the top of the repository.

bench/costs.py run rt ci    runs the command, and writes into bench/gate.costs what each crate took of processors for its
                            proof, its tests and its edits; prints the minutes of the clock and of processors. What the run
                            took over from earlier ones keeps its line: for a whole measure `rt ci --anew`.
bench/costs.py table        puts the run and bench/gate.costs as a table into docs/GATE.md, between its two marks.
"""
import collections
import glob
import os
import re
import resource
import subprocess
import sys
import threading
import time

COSTS, PAGE = "bench/gate.costs", "docs/GATE.md"
HEAD = "# seconds of a processor for proof, tests and edits, and functions that are proved (0: not known)\n"
RUN = "# run: "
BEGIN, END = "<!-- of bench/gate.costs, by bench/costs.py table -->", "<!-- the end of it -->"
TICKS = os.sysconf("SC_CLK_TCK")


def processes():
    """Each process: its parent, what it and its children that ended took, and when it began."""
    found = {}
    for name in filter(str.isdigit, os.listdir("/proc")):
        try:
            with open(f"/proc/{name}/stat", encoding="utf-8", errors="replace") as it:
                words = it.read().rpartition(")")[2].split()
        except OSError:
            continue
        found[int(name)] = int(words[1]), sum(map(int, words[11:15])) / TICKS, words[19]
    return found


def what(pid):
    """The crate that a check is of, and whether it is for its proof, its tests or its edits."""
    try:
        with open(f"/proc/{pid}/cmdline", encoding="utf-8", errors="replace") as it:
            words = it.read().split("\0")
        folder = os.readlink(f"/proc/{pid}/cwd")
    except OSError:
        return None
    if "--crate-name" not in words or "rattle" not in words[0]:
        return None
    kind = "edits" if "/rt-edit" in folder else "tests" if "--test" in words else "proof"
    return words[words.index("--crate-name") + 1], kind


def watch(root, spent, is_over):
    """Until the command ends: the most that was seen of each check below it, with all processes below that one."""
    known = {}
    while not is_over.wait(0.5):
        found, below = processes(), collections.defaultdict(list)
        for pid, (parent, _, _) in found.items():
            below[parent].append(pid)
        waiting = [(it, None) for it in below[root]]
        sums = collections.Counter()
        while waiting:
            pid, of = waiting.pop()
            begun = found[pid][2]
            if of is None:
                if (pid, begun) not in known or known[pid, begun] is None:
                    known[pid, begun] = what(pid)
                of = known[pid, begun] and (pid, begun, *known[pid, begun])
            if of:
                sums[of] += found[pid][1]
            waiting += [(it, of) for it in below[pid]]
        for of, seconds in sums.items():
            spent[of] = max(spent.get(of, 0), seconds)


def read_costs():
    with open(COSTS, encoding="utf-8") as it:
        rows = [line.split() for line in it if line.strip() and not line.startswith("#")]
    return {row[0]: [int(it) for it in [*row[1:], "0"][:4]] for row in rows}


def names():
    with open("crates.txt", encoding="utf-8") as it:
        return [line.split(":")[0].split()[0] for line in it if ":" in line and not line.startswith("#")]


def edits_of(name):
    return len(glob.glob(f"crates/{name}/must-fail/*.edit"))


def has_tests(name):
    files = glob.glob(f"crates/{name}/src/**/*.rt", recursive=True)
    return any("#[test]" in open(it, encoding="utf-8").read() for it in files)


def run(words):
    spent, functions, is_over, begun, of = {}, {}, threading.Event(), time.time(), None
    with subprocess.Popen(words, stdout=subprocess.PIPE, stderr=subprocess.STDOUT, text=True, errors="replace") as ran:
        watcher = threading.Thread(target=watch, args=(ran.pid, spent, is_over))
        watcher.start()
        for line in ran.stdout:
            print(line, end="", flush=True)
            head, told = re.match(r"== (\w+)(: its tests)?$", line), re.match(r"logic=proved .*?functions=(\d+)", line)
            of = head[1] if head and not head[2] else None if head else of
            if told and of:
                functions[of] = int(told[1])
        ran.wait()
        is_over.set()
        watcher.join()
    used = resource.getrusage(resource.RUSAGE_CHILDREN)
    sums, costs = collections.defaultdict(collections.Counter), read_costs()
    for (_, _, name, kind), seconds in spent.items():
        sums[name][kind] += seconds
    day, clock = time.strftime("%d %B %Y", time.gmtime(begun)), (time.time() - begun) / 60
    took = (f"`{' '.join(words)}` of {day}: {clock:.0f} minutes of the clock, "
            f"{(used.ru_utime + used.ru_stime) / 60:.0f} of processors, of which there are {len(os.sched_getaffinity(0))}")
    print(f"{took}; {sum(spent.values()) / 60:.0f} in checks")
    with open(COSTS, "w", encoding="utf-8") as it:
        it.write(f"{HEAD}{RUN}{took}\n")
        for name in names():
            old, new = costs.get(name, [0, 0, 0, 0]), sums[name]
            proof, tests, edits = (round(new.get(kind, old[at])) for at, kind in enumerate(("proof", "tests", "edits")))
            tests, edits = tests * has_tests(name), edits * bool(edits_of(name))
            it.write(f"{name} {proof} {tests} {edits} {functions.get(name, old[3])}\n")
    return ran.returncode


def table():
    costs, rows, small = read_costs(), [], []
    known = [it for it in names() if it in costs]
    for name in sorted(known, key=lambda it: -sum(costs[it][:3])):
        proof, tests, edits, functions = costs[name]
        each = f"{proof / functions:.1f}" if functions else ""
        if proof + tests + edits < 100:
            small.append(name)
        else:
            rows.append(f"|{name}|{functions or ''}|{proof}|{each}|{tests or ''}|{edits or ''}|{edits_of(name) or ''}|")
    sums = [sum(costs[it][at] for it in known) for at in range(3)]
    part = [sum(costs[it][at] for it in small) for at in range(3)]
    rows.append(f"|{len(small)} smaller||{part[0]}||{part[1]}|{part[2]}|{sum(map(edits_of, small))}|")
    minutes = [round(it / 60) for it in sums]
    rows.append(f"|all, in minutes||{minutes[0]}||{minutes[1]}|{minutes[2]}|{sum(map(edits_of, known))}|")
    head = ["|crate|functions|proof|a function|tests|edits|how many|", "|-|-:|-:|-:|-:|-:|-:|"]
    with open(COSTS, encoding="utf-8") as it:
        took = next((line.removeprefix(RUN).strip() for line in it if line.startswith(RUN)), "not measured yet")
    with open(PAGE, encoding="utf-8") as it:
        before, behind = it.read().split(BEGIN)
    with open(PAGE, "w", encoding="utf-8") as it:
        lines = [f"{before}{BEGIN}", "", f"{took}.", "", *head, *rows, "", f"{END}{behind.split(END)[1]}"]
        it.write("\n".join(lines))
    return 0


if __name__ == "__main__":
    if sys.argv[1:2] == ["run"] and sys.argv[2:]:
        sys.exit(run(sys.argv[2:]))
    sys.exit(table() if sys.argv[1:] == ["table"] else __doc__)

#!/usr/bin/env python3
"""How long the gate would take: bench/gate.py COSTS, at the top of the repository.

COSTS has a line for each crate: its name and the processor seconds of its proof, of its tests and of its edits. The
kit's own way to put parts into lanes is simulated, with its own figures of memory: LANES and MEMORY (GB) in the
environment say what there is. With -v behind COSTS each part of half a minute and more is printed with its start.
"""
import importlib.machinery
import importlib.util
import os
import shutil
import sys


def load_kit():
    command = os.path.realpath(shutil.which("rattle") or sys.exit("rattle is not on the path"))
    file = os.path.join(os.path.dirname(command), "rt")
    loader = importlib.machinery.SourceFileLoader("kit_rt", file)
    made = importlib.util.module_from_spec(importlib.util.spec_from_loader("kit_rt", loader))
    sys.modules["kit_rt"] = made
    loader.exec_module(made)
    made.rtlib.Crate = made.Crate
    return made


def parts_of(kit, costs):
    parts = {}
    for crate in sorted(kit.rtlib.crates_below(os.getcwd()), key=lambda it: len(it.below())):
        proof, tests, edits = costs.get(crate.name, (60.0, 60.0, 60.0))
        name, lines, need = crate.name, crate.count(rb"\n"), kit.need(crate)
        waits = [(it.name, "proof") for it in crate.below()]
        has_tests, has_edits = crate.has_tests(), bool(kit.edits_of(crate)[0])
        parts[name, "proof"] = waits, lines, need, proof
        parts[name, "tests"] = waits, lines * has_tests, need, tests * has_tests
        both = [(name, "proof"), (name, "tests")]
        parts[name, "edits"] = both, lines * has_edits, need, edits * has_edits
    return parts


def simulate(parts, lanes, memory, is_shown):
    behind = dict.fromkeys(parts, 0)
    for key in reversed(list(parts)):
        behind[key] += parts[key][1]
        for below in parts[key][0]:
            behind[below] = max(behind[below], behind[key])
    left, running, ended, now = sorted(parts, key=lambda it: -behind[it]), {}, set(), 0.0
    while left or running:
        ready = [it for it in left if all(below in ended for below in parts[it][0])]
        for at, key in enumerate(ready):
            _, _, need, seconds = parts[key]
            room = memory - sum(it[1] for it in running.values())
            idle = lanes - sum(it[2] for it in running.values())
            if idle > 0 and (not running or need <= room):
                left.remove(key)
                spare = 1 if key[1] == "edits" else min(4, idle // (len(ready) - at), 1 + int((room / need - 1) / 0.6))
                jobs = max(1, spare)
                running[key] = now + seconds / (1 + 0.75 * (jobs - 1)), need * (1 + 0.6 * (jobs - 1)), jobs
                if is_shown and seconds > 30:
                    print(f"{now / 60:6.1f} {key[0]:18} {key[1]:6} {seconds / 60:5.1f} minutes, {need / 1e9:.1f} GB")
        key = min(running, key=lambda it: running[it][0])
        now = running.pop(key)[0]
        ended.add(key)
    return now


def main():
    words = [it for it in sys.argv[1:] if it != "-v"]
    if len(words) != 1:
        sys.exit(__doc__)
    with open(words[0], encoding="utf-8") as it:
        rows = [line.split() for line in it if line.strip() and not line.startswith("#")]
    parts = parts_of(load_kit(), {row[0]: tuple(map(float, row[1:4])) for row in rows})
    lanes, memory = int(os.environ.get("LANES", "4")), float(os.environ.get("MEMORY", "21.2")) * 1e9
    clock = simulate(parts, lanes, memory, "-v" in sys.argv)
    print(f"{clock / 60:.0f} minutes, {sum(it[3] for it in parts.values()) / 60:.0f} of a processor")


main()

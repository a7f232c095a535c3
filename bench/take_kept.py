#!/usr/bin/env python3
"""take_kept.py CLONE: puts into the clone's out/ the libraries of the same text that `rt ci` has kept on this machine.

For a kit whose `rt ci` keeps what passed. `linkfrom.py` takes libraries from gates that still run; a gate's copy goes at
its end, and what it built last with it. Lowest crate first, since a kept library's name is the sum of those below it.
"""
import os
import shutil
import sys

sys.path.insert(0, os.path.dirname(os.path.abspath(__file__)))
sys.dont_write_bytecode = True

from clones import KIT


def is_had(crate, kept):
    """Whether the library stands in the clone, or could be put there."""
    if crate.is_built():
        return True
    out, key = f"{crate.folder}/out", kept.key(crate)
    if not os.path.isdir(kept.place(crate, False, key)):
        return False
    os.makedirs(out, exist_ok=True)
    shutil.rmtree(f"{out}/rlib", ignore_errors=True)
    if not kept.give(crate, False, key):
        return False
    with open(f"{out}/rlib/stamp", "w", encoding="utf-8") as file:
        file.write(crate.stamp())
    print("took", crate.name, flush=True)
    return True


def main(clone):
    os.chdir(os.path.realpath(clone))
    KIT.rtlib.guarded()
    KIT.Crate.allowed = KIT.handles_of(os.getcwd())
    crates = KIT.crates_of(os.getcwd())
    kept, had = KIT.Kept(crates), set()
    for crate in crates:
        if crate.makes_rlib() and all(below.name in had for below in crate.deps) and is_had(crate, kept):
            kept.is_built(crate)
            had.add(crate.name)
    print("lacking:", *[it.name for it in crates if it.makes_rlib() and it.name not in had] or ["none"])


if __name__ == "__main__":
    main(*sys.argv[1:])

#!/usr/bin/env python3
"""linkfrom.py CLONE: gives the clone the libraries that `rt ci` keeps on this machine of the same text, over the same libraries.

What isn't kept there is taken from a clone beside this one that built it of the same text over the very same libraries:
a library built over another build of what is below can't be used beside it. What the clone built itself stays where
nothing is kept. It prints what it linked and what is lacking.
"""
import glob
import hashlib
import importlib.util
import json
import os
import shutil
import sys

CLONE = os.path.realpath(sys.argv[1])
spec = importlib.util.spec_from_file_location("clones", f"{os.path.dirname(os.path.realpath(__file__))}/clones.py")
CLONES = importlib.util.module_from_spec(spec)
spec.loader.exec_module(CLONES)
CLONES.remember_stamps()
KIT, LIB = CLONES.KIT, CLONES.LIB
os.chdir(CLONE)
LIB.Crate = KIT.Crate
KIT.Crate.allowed = KIT.handles_of(CLONE)
CRATES = sorted(LIB.crates_below(CLONE), key=lambda it: len(it.below()))
KEPT = KIT.Kept(CRATES)


def sum_of_files(files):
    return hashlib.sha256(repr([(path, sum) for path, sum in files]).encode()).hexdigest()


def from_store(crate, key):
    """Links what is kept under the key, unless it stands there already; answers the sum of its files."""
    at, out = KEPT.place(crate, False, key), f"{crate.folder}/out"
    if not os.path.isfile(f"{at}/made.json"):
        return None
    with open(f"{at}/made.json", encoding="utf-8") as it:
        files = json.load(it)["files"]
    mark = f"{out}/rlib/kept-key"
    if LIB.text_of(mark) != key:
        shutil.rmtree(f"{out}/rlib", ignore_errors=True)
        if not KEPT.give(crate, False, key):
            return None
        with open(mark, "w", encoding="utf-8") as it:
            it.write(key)
        print("linked", crate.name)
    with open(f"{out}/rlib/stamp", "w", encoding="utf-8") as it:
        it.write(crate.stamp())
    return sum_of_files(files)


def formats(crate, top):
    return [LIB.sum_of(f"{top}/{it.name}/out/rlib/{it.name}.rlib/format") for it in crate.below()]


def from_clone(crate):
    """Links what a clone beside this one has built of the same text, over the same libraries."""
    stamp, own = crate.stamp(), formats(crate, f"{CLONE}/crates")
    for there in glob.glob(f"{CLONE}/../*/crates/{crate.name}/out/rlib/stamp"):
        top = os.path.realpath(f"{there}/../../../..")
        if top != f"{CLONE}/crates" and LIB.text_of(there) == stamp and formats(crate, top) == own:
            to = f"{crate.folder}/out/rlib"
            shutil.rmtree(to, ignore_errors=True)
            os.makedirs(os.path.dirname(to), exist_ok=True)
            shutil.copytree(os.path.dirname(there), to, copy_function=os.link)
            print("linked", crate.name, "from", os.path.dirname(top))
            return True
    return False


for crate in CRATES:
    if not crate.makes_rlib():
        continue
    below = [it.name for it in crate.below() if it.name not in KEPT.rlibs]
    if below:
        print("lacking", crate.name, "for", below[0])
        continue
    found = from_store(crate, KEPT.key(crate))
    if found:
        KEPT.rlibs[crate.name] = found
    elif crate.is_built() or from_clone(crate):
        KEPT.is_built(crate)
    else:
        print("lacking", crate.name)

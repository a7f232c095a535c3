#!/usr/bin/env python3
"""What `rt ci` does, over what checks have kept: bench/kept_gate.py [--lanes N] [--alone] [--no-edits] [--no-tests] [CRATE ..]

For a kit whose `rt ci` keeps nothing and takes no names. In the clone that it lies in, lowest crate first: the text of
each crate as the gate wants it, its proof over `out/incremental` and over libraries that are built or linked from clones
beside this one, its tests proved (by TEST_JOBS jobs) and run, its must-fail edits over a copy of what the proof kept. With
names, these crates and those below, or with --alone these over what others have built below. What passed is remembered in
/tmp/kept-gate by the sum of all that a crate is made from, and isn't done again. Each part's processor seconds are
printed. It is no verdict: that is `rt ci` alone, from nothing.
"""
import glob
import importlib.util
import os
import resource
import shutil
import subprocess
import sys
import tempfile
import time
from concurrent.futures import FIRST_COMPLETED, ThreadPoolExecutor, wait

ROOT = os.path.realpath(os.path.join(os.path.dirname(os.path.abspath(__file__)), ".."))
ROOM = "/tmp/kept-gate"


def load_clones():
    spec = importlib.util.spec_from_file_location("clones", f"{ROOT}/bench/clones.py")
    made = importlib.util.module_from_spec(spec)
    spec.loader.exec_module(made)
    made.remember_stamps()
    return made


CLONES = load_clones()
KIT = CLONES.KIT
LIB = KIT.rtlib


def crates():
    os.chdir(ROOT)
    LIB.Crate = KIT.Crate
    KIT.Crate.allowed = KIT.handles_of(ROOT)
    made = KIT.Crate.__init__

    def make(self, *given, **named):
        made(self, *given, **named)
        KIT.read_files(self)

    if made.__name__ != "make":
        KIT.Crate.__init__ = make
    return {it.name: it for it in LIB.crates_below(ROOT)}


def edits_sum(crate):
    return "".join(open(it, encoding="utf-8").read() for it in sorted(glob.glob(f"{crate.folder}/must-fail/*.edit")))


def mark(crate, part):
    more = f"-{abs(hash_of(edits_sum(crate)))}" if part == "edits" else ""
    return f"{ROOM}/{crate.name}-{part}-{crate.stamp()[:40]}{more}"


def hash_of(text):
    import hashlib
    return int(hashlib.sha256(text.encode()).hexdigest()[:12], 16)


def text_is_well(crate, all_of_them):
    LIB.stop_on_links(crate.folder)
    LIB.stop_on_unread(crate.folder, all_of_them)
    LIB.stop_on_text(crate, "verdict")
    KIT.stop_on_words(crate)
    return not LIB.fmt(crate.folder, "--check", sys.stdout)


def link(crate, with_kept=True):
    """Takes the library, and what its check kept, from a clone beside this one that has built the same."""
    is_kept = not with_kept or os.path.isdir(f"{crate.folder}/out/incremental")
    if not crate.makes_rlib() or crate.is_built() and is_kept:
        return
    stamp = crate.stamp()
    same = [it for it in glob.glob(f"{ROOT}/../*/crates/{crate.name}/out/rlib/stamp") if LIB.text_of(it) == stamp]
    folders = [os.path.dirname(os.path.dirname(it)) for it in same]
    folders = [it for it in folders if it != f"{crate.folder}/out"]
    for there in sorted(folders, key=lambda it: not os.path.isdir(f"{it}/incremental"))[:1]:
        if not crate.is_built():
            shutil.rmtree(f"{crate.folder}/out/rlib", ignore_errors=True)
            os.makedirs(f"{crate.folder}/out", exist_ok=True)
            shutil.copytree(f"{there}/rlib", f"{crate.folder}/out/rlib", copy_function=os.link)
        if with_kept and os.path.isdir(f"{there}/incremental"):
            shutil.rmtree(f"{crate.folder}/out/incremental", ignore_errors=True)
            subprocess.run(["cp", "-a", "--reflink=auto", f"{there}/incremental", f"{crate.folder}/out/incremental"], check=False)


def built(crate, words, to):
    """Whether rattle proves and builds it, with no more than HANDLES allows and no contract that no call can meet."""
    whole = [*LIB.guarded(), LIB.RATTLE, "build", *words, "--empty-contracts", "-o", to]
    ran = subprocess.run(whole, cwd=crate.folder, stdout=subprocess.PIPE, stderr=subprocess.STDOUT, errors="replace", check=False)
    print(ran.stdout, flush=True)
    last = ran.stdout.rstrip().rpartition("\n")[2]
    if ran.returncode or not last.startswith("logic=proved"):
        return False
    why = crate.beyond(last, "--test" in words)
    print(why or "")
    is_empty = "empty contracts:" in ran.stdout and "empty contracts: 0 found" not in ran.stdout
    return not why and not is_empty and not LIB.chose_a_term(ran.stdout, True)


def proof(crate):
    """The proof as the gate asks for it, over what is kept; it leaves the library built."""
    link(crate)
    os.makedirs(f"{crate.folder}/out/rlib", exist_ok=True)
    words = [*crate.words(["--jobs", "1"], keeps=False), "--incremental", "out/incremental"]
    if crate.is_program:
        to = f"out/{crate.name}"
        more = ["--toolchain", f"{LIB.KIT}/toolchain", "--backend", "llvm"]
        return built(crate, [*words, *more], f"{to}.o") and not crate.link(f"{to}.o", to)
    with tempfile.TemporaryDirectory() as room:
        if not built(crate, words, f"{room}/{crate.name}.rlib"):
            return False
    return crate.is_built() or not crate.build_rlib(["--jobs", "1"], False)


def tests(crate):
    if not crate.has_tests():
        return True
    to = f"out/{crate.name}_tests"
    jobs = os.environ.get("TEST_JOBS", "1")
    words = [*crate.words(["--jobs", jobs], tests=True, keeps=False), "--incremental", "out/incremental"]
    words += ["--toolchain", f"{LIB.KIT}/toolchain", "--backend", "llvm"]
    return built(crate, words, f"{to}.o") and not crate.link(f"{to}.o", to) and KIT.run(crate, True, "")


def edits(crate):
    good, bad = KIT.edits_of(crate)
    if bad:
        print("bad names of edits:", bad)
    if not good:
        return not bad
    with tempfile.TemporaryDirectory() as room:
        kept = f"{room}/kept"
        subprocess.run(["cp", "-a", "--reflink=auto", f"{crate.folder}/out/incremental", kept], check=False)
        told = [KIT.must_fail(crate, it, ["--jobs", "1"], kept) for it in good]
    for is_refused, text in told:
        print("  ", text if is_refused else f"!! {text}", flush=True)
    return not bad and all(it[0] for it in told)


def ran(crate):
    if not crate.is_program:
        return True
    return all(KIT.run(crate, False, it) for it in KIT.BACKENDS.values() if os.path.isfile(f"{crate.folder}/out/{crate.name}{it}"))


PARTS = {"proof": proof, "tests": tests, "edits": edits, "run": ran}


def part(name, of):
    """Run in a process of its own, so that its processor time can be told."""
    LIB.guarded()
    known = crates()
    crate = known[name]
    crate.out = sys.stdout
    try:
        if of == "proof" and not text_is_well(crate, [*known.values()]):
            print("not in rt fmt's layout, or its text is refused")
            return 1
        return 0 if PARTS[of](crate) else 1
    except SystemExit as stopped:
        print("stopped:", stopped)
        return 1


def main(*words):
    if words[:1] == ("part",):
        return part(*words[1:])
    os.makedirs(ROOM, exist_ok=True)
    words, lanes = [*words], 1
    if "--lanes" in words:
        at = words.index("--lanes")
        lanes = int(words[at + 1])
        del words[at : at + 2]
    asked = [it for it in PARTS if f"--no-{it}" not in words]
    names = [it for it in words if not it.startswith("--")]
    known = crates()
    wanted = {it for name in names or known for it in [name, *[below.name for below in known[name].below()]]}
    if "--alone" in words:
        for it in sorted(wanted - {*names}, key=lambda it: len(known[it].below())):
            link(known[it], False)
        wanted = {*names}
    order = sorted(wanted, key=lambda it: len(known[it].below()))
    tasks, state = [(it, of) for of in asked for it in order], {}
    for it, of in tasks:
        if os.path.exists(mark(known[it], of)):
            link(known[it], False)
            if of != "proof" or not known[it].makes_rlib() or known[it].is_built():
                state[it, of] = True
    started = time.time()

    def waits(name, of):
        below = [(it.name, "proof") for it in known[name].below()] if of != "run" else []
        return below + ([(name, "proof")] if of != "proof" else [])

    def work(name, of):
        log = f"{ROOM}/{name}-{of}.log"
        with open(log, "w", encoding="utf-8") as out:
            child = subprocess.Popen([sys.executable, __file__, "part", name, of], stdout=out, stderr=subprocess.STDOUT)
            _, status, used = os.wait4(child.pid, 0)
        return os.waitstatus_to_exitcode(status) == 0, used.ru_utime + used.ru_stime, log

    running = {}
    with ThreadPoolExecutor(lanes) as pool:
        left = [it for it in tasks if it not in state]
        while left or running:
            for it in [*left]:
                needs = [state.get(key, None if key in tasks else True) for key in waits(*it)]
                if any(need is False for need in needs):
                    left.remove(it)
                    state[it] = False
                    print(time.strftime("%H:%M:%S"), *it, "not tried: something below failed", flush=True)
                elif all(needs) and len(running) < lanes:
                    left.remove(it)
                    running[pool.submit(work, *it)] = it
            if not running:
                break
            for future in wait(running, return_when=FIRST_COMPLETED).done:
                it = running.pop(future)
                state[it], used, log = future.result()
                if state[it]:
                    open(mark(known[it[0]], it[1]), "w", encoding="utf-8").close()
                print(time.strftime("%H:%M:%S"), *it, "passed" if state[it] else f"FAILED: {log}", f"{used:.0f} s", flush=True)
    failed = [it for it in tasks if not state.get(it)]
    print(f"{len(tasks) - len(failed)} passed, {len(failed)} failed, {(time.time() - started) / 60:.0f} minutes")
    return 1 if failed else 0


if __name__ == "__main__":
    sys.exit(main(*sys.argv[1:]))

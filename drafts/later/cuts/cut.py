#!/usr/bin/env python3
"""Cuts modules of a crate off into crates below it: cut.py ROOT CONFIG.

CONFIG is a file of Python with CRATE, and PARTS: a list of (name, line of crates.txt, head of lib.rt, modules), lowest
first. Files of specs/ and lemmas of proofs/ go to the lowest part that needs them; all else stays. KEEP names files of
specs/ or proofs/ that stay, TAKE = {file: part} those that are to go elsewhere.
"""
import os, re, subprocess, sys, glob, shutil

ROOT, CONFIG = sys.argv[1], sys.argv[2]
cfg = {"KEEP": [], "TAKE": {}}
exec(open(CONFIG).read(), cfg)
C, PARTS = cfg["CRATE"], cfg["PARTS"]
os.chdir(ROOT)
home = f"crates/{C}"
order = [it[0] for it in PARTS] + [C]
read = lambda f: open(f, encoding="utf-8").read()
def write(f, t):
    os.makedirs(os.path.dirname(f), exist_ok=True)
    open(f, "w", encoding="utf-8").write(t)
modules = {os.path.relpath(f, f"{home}/src")[:-3]: f for f in glob.glob(f"{home}/src/*.rt") if not f.endswith("/lib.rt")}
owner = {m: C for m in modules}
for name, _, _, mods in PARTS:
    for m in mods:
        assert m in modules, m
        owner[m] = name
rank = {c: i for i, c in enumerate(order)}
specs = {os.path.basename(f)[:-5]: f for f in glob.glob(f"{home}/specs/*.antt") if not f.endswith("Lib.antt")}
lemmas = {}
for f in glob.glob(f"{home}/proofs/**/*.antt", recursive=True):
    base = os.path.basename(f)
    if base in ("Lib.antt", "Answers.antt", "Invariants.antt", "Proof.antt"): continue
    lemmas[os.path.relpath(f, f"{home}/proofs")[:-5].replace("/", ".")] = f
proofs = {}
for f in glob.glob(f"{home}/proofs/**/*.antt", recursive=True):
    base = os.path.basename(f)
    if base in ("Answers.antt", "Invariants.antt", "Proof.antt"):
        proofs[f] = os.path.relpath(f, f"{home}/proofs").split("/")[0]
REF = re.compile(r"Rattle\." + C + r"\.(specs|proofs)\.([A-Za-z_0-9+.\-]*)")
def refs(text):
    out = set()
    for side, path in REF.findall(text):
        words = path.strip(".").split(".")
        if side == "specs" and words[0] in ("declared", "contracts"):
            out.add(("mod", words[1]))
        elif side == "specs":
            out.add(("specs", words[0]))
        else:
            for n in range(len(words), 0, -1):
                if ".".join(words[:n]) in lemmas:
                    out.add(("lemma", ".".join(words[:n]))); break
            else:
                out.add(("mod", words[0]))
    for a in re.findall(r"\b(?:crate|" + C + r")::(specs|proofs)::([A-Za-z_]+)", text):
        out.add(("specs" if a[0] == "specs" else "lemma", a[1]))
    return out
place = {}
def need(part, todo):
    """Gives the part what these need and no lower part has."""
    while todo:
        kind, it = todo.pop()
        if kind == "mod":
            if it in owner and rank[owner[it]] > rank[part]:
                print(f"!! {part} needs module {it} of {owner[it]}")
            continue
        table = specs if kind == "specs" else lemmas
        if it not in table:
            print("?? unknown", kind, it); continue
        if (kind, it) in place: continue
        want = cfg["TAKE"].get(it, part)
        if it in cfg["KEEP"]: want = C
        if rank[want] > rank[part]: print(f"!! {part} needs {kind} {it}, which is to be in {want}")
        place[kind, it] = want
        todo |= refs(read(table[it]))
for name, *_ in PARTS:
    todo = set()
    for m in modules:
        if owner[m] == name: todo |= refs(read(modules[m]))
    for f, m in proofs.items():
        if owner.get(m) == name: todo |= refs(read(f))
    for it, part in cfg["TAKE"].items():
        if part == name:
            todo.add(("specs", it) if it in specs else ("lemma", it))
    need(name, todo)
for k in specs: place.setdefault(("specs", k), C)
for k in lemmas: place.setdefault(("lemma", k), C)
for (kind, it), part in place.items():
    for k, x in refs(read((specs if kind == "specs" else lemmas)[it])):
        o = owner.get(x, C) if k == "mod" else place.get((k, x), C)
        if rank[o] > rank[part]: print(f"!! {kind} {it} in {part} names {k} {x} of {o}")
for m in modules:
    for x in re.findall(r"\bcrate::([a-z_0-9]+)\b", read(modules[m])):
        if x in owner and rank[owner[x]] > rank[owner[m]]: print(f"!! module {m} of {owner[m]} uses {x} of {owner[x]}")
for part in order:
    print("==", part, "modules:", *[m for m in sorted(modules) if owner[m] == part])
    print("   specs:", *[k[1] for k in sorted(place) if place[k] == part and k[0] == "specs"])
    print("   lemmas:", *[k[1] for k in sorted(place) if place[k] == part and k[0] == "lemma"],
          sum(read(lemmas[k[1]]).count("\n") for k in place if place[k] == part and k[0] == "lemma"), "lines")
if len(sys.argv) > 3 and sys.argv[3] == "plan": sys.exit()

def renamed(text):
    def sub(m):
        side, path = m[1], m[2]
        words = path.split(".")
        o = C
        if side == "specs" and words[0] in ("declared", "contracts") and len(words) > 1: o = owner.get(words[1], C)
        elif side == "specs": o = place.get(("specs", words[0]), C)
        else:
            for n in range(len(words), 0, -1):
                if ".".join(words[:n]) in lemmas: o = place["lemma", ".".join(words[:n])]; break
            else: o = owner.get(words[0], C)
        return f"Rattle.{o}.{side}.{path}"
    text = REF.sub(sub, text)
    return re.sub(r"\b" + C + r"::(specs|proofs)::([A-Za-z_]+)", lambda m: f"{place.get((('specs' if m[1]=='specs' else 'lemma'), m[2]), C)}::{m[1]}::{m[2]}", text)

# what modules of lower parts are asked for from above
asked = {}
def code(text, mine):
    """The text of a file of the part `mine`, with what it uses of other parts."""
    def used(m):
        mod, rest = m[2], m[3]
        o = owner.get(mod, mine)
        if o == mine: return m[0]
        asked.setdefault(o, set()).add(mod)
        return f"{m[1]}{o}::{mod}{rest}"
    return re.sub(r"(\b)crate::([a-z_0-9]+)(::)", used, text)
def move(f, part):
    return f.replace(home + "/", f"crates/{part}/", 1)
gone = []
texts = {}
for m, f in modules.items():
    t = code(renamed(read(f)), owner[m])
    if owner[m] != C:
        t = t.replace("pub(crate)", "pub").replace("pub(super)", "pub")
    texts[move(f, owner[m])] = t
    if owner[m] != C: gone.append(f)
for f, m in proofs.items():
    o = owner.get(m, C)
    texts[move(f, o)] = renamed(read(f))
    if o != C: gone.append(f)
for (kind, it), part in place.items():
    f = (specs if kind == "specs" else lemmas)[it]
    texts[move(f, part)] = renamed(read(f))
    if part != C: gone.append(f)
for f in glob.glob(f"{home}/must-fail/*.edit"):
    t = read(f); mods = re.findall(r"^file: src/([a-z_0-9]+)\.rt", t, re.M)
    o = owner[mods[0]]
    assert all(owner[x] == o for x in mods), f
    texts[move(f, o)] = code(renamed(t), o)
    if o != C: gone.append(f)
# node files of lemmas in folders (proofs/Cases.antt and proofs/Cases/..) go with what they hold
lib = read(f"{home}/src/lib.rt")
for name, line, head, mods in PARTS:
    body = "".join(f"{'pub ' if m in asked.get(name, ()) else ''}mod {m};\n" for m in sorted(mods))
    texts[f"crates/{name}/src/lib.rt"] = head.strip("\n") + "\n#![tactic(auto)]\n\n" + body + cfg.get("TAIL", {}).get(name, "")
for m in modules:
    if owner[m] != C:
        lib = re.sub(rf"^(pub )?mod {m};\n", "", lib, flags=re.M)
        def reexport(x):
            asked.setdefault(owner[m], set()).add(m)
            return f"pub use {owner[m]}::{m}::"
        lib = re.sub(rf"\bpub use {m}::", reexport, lib)
texts[f"{home}/src/lib.rt"] = cfg.get("HEAD", "") or lib
for name, line, head, mods in PARTS:  # once more, since lib.rt asks too
    body = "".join(f"{'pub ' if m in asked.get(name, ()) else ''}mod {m};\n" for m in sorted(mods))
    texts[f"crates/{name}/src/lib.rt"] = head.strip("\n") + "\n#![tactic(auto)]\n\n" + body + cfg.get("TAIL", {}).get(name, "")
for side, kind in (("specs", "specs"), ("proofs", "lemma")):
    f = f"{home}/{side}/Lib.antt"
    if not os.path.exists(f): continue
    lines = read(f).splitlines(True)
    for part in order:
        kept = []
        for l in lines:
            x = re.match(r"(?:pub )?mod (\w+)", l)
            if not x:
                if part == C and (C, side) not in cfg.get("NOTES", {}): kept.append(l)
                continue
            if place.get((kind, x[1]), None) == part: kept.append(l if part == C else "pub mod " + x[1] + "\n")
            elif (kind, x[1]) not in place and part == C: kept.append(l)
        if part == C or kept:
            texts[f"crates/{part}/{side}/Lib.antt"] = cfg.get("NOTES", {}).get((part, side), "") + "".join(kept)
for f in gone: os.remove(f)
for f, t in texts.items(): write(f, t)
for f in [f for p in ("src", "specs", "proofs") for e in ("antt", "rt") for f in glob.glob(f"crates/*/{p}/**/*.{e}", recursive=True)]:
    if "/out/" in f or f in texts: continue
    t = read(f); n = renamed(t)
    if n != t: write(f, n)
for d, _, _ in sorted(os.walk(home), reverse=True):
    if not os.listdir(d): os.rmdir(d)
# crates.txt
rows = read("crates.txt").splitlines(True)
known = {re.match(r"([a-z_0-9]+)", r)[1]: i for i, r in enumerate(rows) if re.match(r"[a-z_0-9]+.*:", r)}
def mentioned(crate):
    t = "".join(read(f) for f in [f for p in ("src", "specs", "proofs") for f in glob.glob(f"crates/{crate}/{p}/**/*", recursive=True)] if f.endswith((".rt", ".antt")) and "/out/" not in f)
    return set(re.findall(r"\bRattle\.([a-z_0-9]+)\.", t)) | set(re.findall(r"\b([a-z_0-9]+)::", t))
allnames = list(known) 
old = rows[known[C]].split(":")[1].split()
new_rows = []
for i, (name, line, head, mods) in enumerate(PARTS):
    said = mentioned(name)
    deps = [x for x in [p[0] for p in reversed(PARTS[:i])] + old if x in said]
    new_rows += [f"# {line}\n", f"{name}: {' '.join(deps)}\n"]
said = mentioned(C)
rows[known[C]] = f"{C}: {' '.join([p[0] for p in reversed(PARTS) if p[0] in said] + [x for x in old if x in said])}\n"
for other, i in known.items():
    if other == C: continue
    said = mentioned(other)
    extra = [p[0] for p in reversed(PARTS) if p[0] in said]
    if extra:
        head, _, words = rows[i].rstrip("\n").partition(":")
        words = words.split()
        at = words.index(C) + 1 if C in words else len(words)
        words[at:at] = [x for x in extra if x not in words]
        rows[i] = f"{head}: {' '.join(words)}\n"
at = known[C] - 1
rows[at:at] = new_rows
if cfg.get("LINE"): 
    j = rows.index(next(r for r in rows if r.startswith(C + ":"))) - 1
    rows[j] = f"# {cfg['LINE']}\n"
write("./crates.txt", "".join(rows))
print({k: sorted(v) for k, v in asked.items()})

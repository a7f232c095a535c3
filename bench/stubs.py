#!/usr/bin/env python3
"""stubs.py FROM TO CRATE [--keep NAME ..] [--modules MODULE ..] [--more FOLDER ..]

Makes or brings up to date the repository TO, a copy of FROM in which the crates below CRATE that are neither CRATE, nor
kept (--keep), nor built by a gate or another clone, have their specs, types and contracts as they are, and bodies that
want memory (`Err(AllocError)`) or are `unreachable!()`; laws have empty ones. What proved those bodies is gone.
With --modules, CRATE keeps the bodies of these modules of its own alone. Lemma files of stubs that no one cites go too.
Crates that FROM lacks, or has otherwise, are taken from the folders named by --more (CLONE/crates/NAME).
Then in TO: python3 bench/clones.py check CRATE --allow-holes --only CRATE::MODULE ..
"""
import os, re, shutil, subprocess, sys

FOLDERS = ("src", "specs", "proofs")


def skip(text, i):
    """The end of the comment, string or character literal at i, or i."""
    if text.startswith("//", i):
        end = text.find("\n", i)
        return len(text) if end < 0 else end
    if text.startswith("/*", i):
        return text.index("*/", i) + 2
    if text[i] == '"':
        j = i + 1
        while text[j] != '"':
            j += 2 if text[j] == "\\" else 1
        return j + 1
    if text[i] == "'":
        lit = re.compile(r"'(\\u\{[0-9a-fA-F]+\}|\\x..|\\.|[^\\'])'").match(text, i)
        return lit.end() if lit else i + 1
    return i


def group(text, i):
    """The end of the group of braces at i."""
    depth = 0
    while True:
        j = skip(text, i)
        if j != i:
            i = j
            continue
        depth += (text[i] in "{([") - (text[i] in "})]")
        i += 1
        if depth == 0:
            return i


def plain(text):
    out, i = [], 0
    while i < len(text):
        j = skip(text, i)
        if j != i:
            out.append("" if text.startswith("/", i) else text[i:j])
            i = j
            continue
        out.append(text[i])
        i += 1
    return "".join(out)


def body_for(name, head):
    if name == "drop":
        return None
    sig = re.split(r"\b(?:requires|ensures\*?|where)\b", plain(head))[0]
    ret = re.search(r"->\s*(.*)$", sig.strip(), re.S)
    if not ret or ret[1].strip() == "()":
        return "{}"
    if re.search(r"Result<.*,\s*AllocError,?\s*>$", ret[1].strip(), re.S):
        return "{\n    Err(AllocError)\n}"
    return "{\n    unreachable!()\n}"


def strip_file(text):
    out, i, stripped = [], 0, []
    word = re.compile(r"\bfn\s+(\w+)")
    while i < len(text):
        j = skip(text, i)
        if j != i:
            out.append(text[i:j])
            i = j
            continue
        found = word.match(text, i) if (i == 0 or not (text[i - 1].isalnum() or text[i - 1] == "_")) else None
        if not found:
            out.append(text[i])
            i += 1
            continue
        start, k = i, found.end()
        while True:
            j = skip(text, k)
            if j != k:
                k = j
            elif text[k] in "([":
                k = group(text, k)
            elif text[k] == ";":
                out.append(text[start:k + 1])
                i = k + 1
                break
            elif text[k] == "{":
                before = plain(text[start:k])
                if re.search(r"\b(requires|ensures)\*?\s*\w*\s*$", before):
                    k = group(text, k)
                    continue
                end = group(text, k)
                new = body_for(found[1], text[start:k])
                out.append(text[start:k] + (text[k:end] if new is None else new))
                stripped.append(found[1])
                i = end
                break
            else:
                k += 1
    made = "".join(out)
    return re.sub(r"^[ \t]*#\[(cycle|tactic)\([^\]]*\]\n", "", made, flags=re.M)


def write(path, data):
    if os.path.exists(path) and open(path, "rb").read() == data:
        return
    os.makedirs(os.path.dirname(path), exist_ok=True)
    with open(path, "wb") as file:
        file.write(data)


def files_of(crate, is_stripped):
    made = {}
    for base in FOLDERS:
        for folder, _, names in os.walk(f"{crate}/{base}"):
            for name in names:
                path = os.path.join(folder, name)
                short = os.path.relpath(path, crate)
                if is_stripped and base == "proofs" and name in ("Answers.antt", "Invariants.antt"):
                    continue
                data = open(path, "rb").read()
                if is_stripped and name.endswith(".rt"):
                    data = strip_file(data.decode()).encode()
                made[short] = data
    if is_stripped and "proofs/Lib.antt" in made:
        keep_cited(os.path.basename(crate), made)
    return made


CITED = {}


def keep_cited(name, made):
    """Of lemma files, those that other crates cite, and those that these cite."""
    todo, kept = list(CITED.get(name, ())), set()
    while todo:
        it = todo.pop()
        if it not in kept:
            kept.add(it)
            own = [d for short, d in made.items() if short == f"proofs/{it}.antt" or short.startswith(f"proofs/{it}/")]
            todo += [n for d in own for n in re.findall(rf"Rattle\.{name}\.proofs\.(\w+)", d.decode())]
    for short in [it for it in made if it.startswith("proofs/") and it != "proofs/Lib.antt"]:
        if short.split("/")[1].removesuffix(".antt") not in kept:
            del made[short]
    lines = made["proofs/Lib.antt"].decode().split("\n")
    named = [(it, re.search(r"\bmod (\w+)", it)) for it in lines]
    made["proofs/Lib.antt"] = "\n".join(it for it, found in named if not found or found[1] in kept).encode()


def strip_modules(crate, modules):
    """Of the crate in its place, all bodies but those of the modules."""
    gone, stay = set(), set()
    for folder, _, names in os.walk(f"{crate}/src"):
        for name in names:
            path = os.path.join(folder, name)
            text = open(path).read()
            if name[:-3] in modules:
                stay |= set(re.findall(r"\bfn\s+(\w+)", text))
                continue
            gone |= {(os.path.relpath(path, f"{crate}/src")[:-3], it) for it in re.findall(r"\bfn\s+(\w+)", text)}
            write(path, strip_file(text).encode())
    for folder, _, names in os.walk(f"{crate}/proofs"):
        place, _, last = os.path.relpath(folder, f"{crate}/proofs").rpartition("/")
        if (place, last) in gone or "/" in place and last not in stay and last in {it for _, it in gone}:
            for name in set(names) & {"Answers.antt", "Invariants.antt"}:
                os.remove(f"{folder}/{name}")


def put(crate, to, is_stripped):
    made = files_of(crate, is_stripped)
    for base in FOLDERS:
        for folder, _, names in os.walk(f"{to}/{base}"):
            for name in names:
                if os.path.relpath(os.path.join(folder, name), to) not in made:
                    os.remove(os.path.join(folder, name))
    for short, data in made.items():
        write(f"{to}/{short}", data)


def main(src, to, target, *words):
    lists, mode = {"--keep": [], "--more": [], "--modules": []}, None
    for word in words:
        if word in lists:
            mode = word
        else:
            lists[mode].append(word)
    src, to = os.path.realpath(src), os.path.realpath(to)
    place = {os.path.basename(it.rstrip("/")): it for it in lists["--more"]}
    lines = [it for it in open(f"{src}/crates.txt").read().split("\n") if ":" in it and not it.startswith("#")]
    needs = {it.split(":")[0].strip(): it.split(":")[1].split() for it in lines}
    below, todo = {target}, [target]
    while todo:
        for it in needs.get(todo.pop(), []):
            if it in needs and it not in below:
                below.add(it)
                todo.append(it)
    os.makedirs(f"{to}/crates", exist_ok=True)
    shutil.rmtree(f"{to}/bench", ignore_errors=True)
    shutil.copytree(f"{src}/bench", f"{to}/bench")
    write(f"{to}/crates.txt", "".join(it + "\n" for it in lines if it.split(":")[0].strip() in below).encode())
    whole = {target, *lists["--keep"]}
    for it in below:
        folder = place.get(it, f"{src}/crates/{it}")
        for at, _, names in os.walk(folder):
            if os.path.relpath(at, folder).split("/")[0] in FOLDERS:
                for name in names:
                    for crate, cited in re.findall(r"Rattle\.(\w+)\.proofs\.(\w+)", open(os.path.join(at, name), errors="replace").read()):
                        if crate != it:
                            CITED.setdefault(crate, set()).add(cited)
    for it in below:
        put(place.get(it, f"{src}/crates/{it}"), f"{to}/crates/{it}", False)
    here = os.path.dirname(os.path.abspath(__file__))
    quiet = {"stdout": subprocess.DEVNULL, "stderr": subprocess.DEVNULL}
    # a kit that keeps nothing has no kept libraries: those of clones beside it then
    if subprocess.run([sys.executable, os.path.join(here, "linkfrom.py"), to], **quiet).returncode:
        subprocess.run([sys.executable, f"{to}/bench/clones.py", "links"], cwd=to, **quiet)
    built = {it for it in below if os.path.exists(f"{to}/crates/{it}/out/rlib/{it}.rlib")}
    # what lies beside a stripped crate is no longer built over it
    for it in [l.split(":")[0].strip() for l in lines]:
        if it in below and (it in whole or it not in built or any(d in below and d not in built for d in needs[it])):
            built.discard(it)
            shutil.rmtree(f"{to}/crates/{it}/out/rlib", ignore_errors=True)
    for it in sorted(below - whole - built):
        put(place.get(it, f"{src}/crates/{it}"), f"{to}/crates/{it}", True)
    if lists["--modules"]:
        strip_modules(f"{to}/crates/{target}", lists["--modules"])
    print("built:", *sorted(built))
    print("stubs:", *sorted(below - whole - built))


if __name__ == "__main__":
    main(*sys.argv[1:]) if len(sys.argv) > 3 else sys.exit(__doc__)

#!/usr/bin/env python3
"""Whether what README.md and docs/ cite is there: documents.py [JREF]

Prints each crate, file of specs, name, must-fail edit and file of a function that a document names and no source has.
With JREF, the built program, it also runs the examples of docs/GUIDE.md whose rows give a text, words and an answer.
"""
import json
import re
import subprocess
import sys
import tempfile
from pathlib import Path

TOP = Path(__file__).resolve().parent.parent
PAGES = [TOP / "README.md", *sorted((TOP / "docs").glob("*.md"))]
WORD = re.compile(r"[A-Za-z_]\w*")


class Crate:
    """The words of a crate's sources, by file too, its files and its edits."""

    def __init__(self, folder):
        self.words, self.files, self.sources = set(), {}, set()
        for part in ("src", "specs", "proofs"):
            for path in (folder / part).rglob("*"):
                if path.suffix in (".rt", ".antt"):
                    words = set(WORD.findall(path.read_text(encoding="utf-8")))
                    self.words |= words | {path.stem}
                    self.files.setdefault(path.stem, set()).update(words)
                    self.sources.add(path.name)
        self.edits = {path.stem for path in (folder / "must-fail").glob("*.edit")}


def missing(crate, text):
    """The words of `File: a, b` or `f, g` that the crate lacks."""
    parts = re.match(r"([A-Z]\w*): (.*)$", text)
    if parts is None:
        return [word for word in WORD.findall(text) if word not in crate.words]
    if parts[1] not in crate.files:
        return [parts[1]]
    return [word for word in WORD.findall(parts[2]) if word not in crate.files[parts[1]]]


def cited_names(crates):
    """Each `jr_x: ..` of a page with what its crate lacks."""
    for page in PAGES:
        for number, line in enumerate(page.read_text(encoding="utf-8").split("\n"), 1):
            for code in re.findall(r"`([^`]+)`", line):
                cited = re.match(r"(jr_\w+)(?:: (.*))?$", code)
                if cited is None or cited[1] in ("jr_x", "jr_NAME"):
                    continue
                if cited[1] not in crates:
                    yield f"{page.name}:{number}: no crate {cited[1]}"
                elif cited[2] and not cited[2].endswith(".."):
                    for word in missing(crates[cited[1]], cited[2]):
                        yield f"{page.name}:{number}: {cited[1]} lacks {word}"


def promised_names(crates):
    """Files and edits of the rows of docs/PROMISES.md that aren't there."""
    edits = set().union(*(crate.edits for crate in crates.values()))
    lines = (TOP / "docs" / "PROMISES.md").read_text(encoding="utf-8").split("\n")
    for number, line in enumerate(lines, 1):
        cells = [cell.strip() for cell in line.split("|")]
        if len(cells) != 6 or not cells[2].startswith("`"):
            continue
        named = [crates[name] for name in re.findall(r"jr_\w+", cells[2]) if name in crates]
        for name in re.findall(r"\w+\.rt", cells[3]):
            if not any(name in crate.sources for crate in named):
                yield f"PROMISES.md:{number}: no file {name}"
        for name in WORD.findall(re.sub(r"\(`jr_\w+`\)", "", cells[4])):
            if name not in edits:
                yield f"PROMISES.md:{number}: no edit {name}"


def answer(program, words, files):
    """What the program prints with the words, over these files."""
    with tempfile.TemporaryDirectory() as folder:
        for name, text in files.items():
            (Path(folder) / name).write_text(text, encoding="utf-8")
        run = subprocess.run([program, *words], cwd=folder, capture_output=True)
        return run.stdout.decode("utf-8").rstrip("\n")


def examples(program):
    """Each example of the guide that gives another answer."""
    page = (TOP / "docs" / "GUIDE.md").read_text(encoding="utf-8")
    rows = re.findall(r"^\| .*?`(class [^`]*)` \| `(\d+) (\S+)` \| `(.*)` \|$", page, re.MULTILINE)
    for text, at, name, wanted in rows:
        got = answer(program, ["rename", "A.java", at, name], {"A.java": text})
        if got != wanted:
            yield f"GUIDE: rename {at} {name} of {text}: {got}"
    moves = re.findall(r"^\| `(class [^`]*)` \| `(\d+) (\d+) (\S+)` \| (\d+) `(.*)` \|$", page, re.MULTILINE)
    for text, start, end, name, number, wanted in moves:
        step = {"step": "extract_local", "file": "A.java", "from": int(start), "to": int(end), "name": name}
        files = {"A.java": text, "s.json": json.dumps([step])}
        got = json.loads(answer(program, ["run", "s.json", "A.java"], files))[0]
        if (got.get("number"), got.get("refusal")) != (int(number), wanted):
            yield f"GUIDE: extract_local {start} {end} {name} of {text}: {got}"
    box = re.search(r"^    (class Box.*)$", page, re.MULTILINE)[1]
    script = '[{"step":"show","file":"Box.java","what":"dependences"}]'
    files = {"Box.java": box, "s.json": script}
    lines = json.loads(answer(program, ["run", "s.json", "Box.java"], files))[0]["lines"]
    wanted = re.findall(r"^\| `(Box\.\S+ \w+ \d+ \d+)` \|", page, re.MULTILINE)
    if lines != wanted:
        yield f"GUIDE: dependences of Box.java: {lines}"
    if len(rows) < 13 or len(moves) < 6 or len(wanted) < 13:
        yield f"GUIDE: {len(rows)} renames, {len(moves)} extractions, {len(wanted)} dependences are too few"


def main():
    crates = {path.name: Crate(path) for path in (TOP / "crates").iterdir() if path.is_dir()}
    found = [*cited_names(crates), *promised_names(crates)]
    if len(sys.argv) > 1:
        found += examples(sys.argv[1])
    print("\n".join([*found, f"{len(found)} differ"]))


if __name__ == "__main__":
    main()

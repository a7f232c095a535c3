"""Random sessions: edits and renames, undone and done again, with shows between them, and their
replies."""
import re

from programs import Maker
from reading.binding import first_error, lines
from reading.program import Program, SourceFault
from reading.renaming import Refused, plan
from thinning import thinned

LIMIT, TOTAL = 1_048_576, 8_388_608
PIECES = [
    "", " ", ";", "x", "int q;", "/*", "/* */", "é", "f", "A", "private ", "static ", "}", "\n",
    "class Z{}", "1",
]


def show(files, name):
    try:
        return {"lines": lines(Program(files), name), "reply": "shown"}
    except SourceFault as fault:
        text = "SourceError %s:%d %s" % (files[fault.file][0], fault.at, fault.kind)
        return {"number": 4, "refusal": text, "reply": "refused"}


def refused(number, text):
    return {"number": number, "refusal": text, "reply": "refused"}


def edit(files, step):
    """The files after an edit, or its refusal."""
    old = dict(files)[step["file"]].encode("utf-8")
    span, at = (step["from"], step["to"]), step["from"]
    starts = lambda i: i == len(old) or i < len(old) and old[i] & 0xC0 != 0x80
    if at > step["to"] or not starts(at) or not starts(step["to"]):
        return None, refused(19, "BadSpan %d %d" % span)
    new = (old[:at] + step["text"].encode("utf-8") + old[step["to"] :]).decode("utf-8")
    after = [(name, new if name == step["file"] else text) for name, text in files]
    lengths = [len(text.encode("utf-8")) for _, text in after]
    longest = len(new.encode("utf-8"))
    if longest > LIMIT:
        return None, refused(20, "TooLong %d" % longest)
    if sum(lengths) > TOTAL:
        return None, refused(20, "TooLong %d" % sum(lengths))
    return after, {"reply": "edited"}


def rename(files, step, locals_alone=False):
    """The files after a rename, or its refusal."""
    after, reply, _ = rename_with_forms(files, step, locals_alone)
    return after, reply


def rename_with_forms(files, step, locals_alone=False):
    """The same, with the respelled references by form."""
    try:
        after, forms = plan(files, step["file"], step["at"], step["name"], locals_alone)
    except Refused as one:
        return None, refused(one.number, one.text), {}
    changed = [name for (name, new), (_, old) in zip(after, files) if new != old]
    reply = {"files": changed, "reply": "refactored", "respelled": sum(forms.values())}
    return after, reply, forms


def replies(files, steps):
    """What each step is answered with, and the files at the end."""
    out, undo, redo = [], [], []
    for step in steps:
        kind = step["step"]
        if kind in ("show", "edit") and step["file"] not in dict(files):
            out.append(refused(1, "NoSuchFile " + step["file"]))
        elif kind == "show":
            out.append(show(files, step["file"]))
        elif kind == "edit":
            after, reply = edit(files, step)
            if after is not None:
                undo.append(files)
                files, redo = after, []
            out.append(reply)
        elif kind == "rename":
            after, reply = rename(files, step)
            if after is not None:
                undo.append(files)
                files, redo = after, []
            out.append(reply)
        elif kind == "undo" and not undo:
            out.append(refused(21, "NothingToUndo"))
        elif kind == "redo" and not redo:
            out.append(refused(22, "NothingToRedo"))
        else:
            taken, given = (undo, redo) if kind == "undo" else (redo, undo)
            given.append(files)
            files = taken.pop()
            out.append({"reply": "undone" if kind == "undo" else "redone"})
    return out, files


class SessionMaker(Maker):
    def step(self, files):
        name = self.pick([name for name, _ in files] * 9 + ["Z.java"])
        kind = self.pick(["edit", "edit", "show", "show", "undo", "redo"])
        if kind in ("undo", "redo"):
            return {"step": kind}
        if kind == "show":
            return {"step": "show", "file": name, "what": "bindings"}
        length = len(dict(files).get(name, "").encode("utf-8"))
        at = self.random.randrange(length + 3)
        to = at + self.pick([-1, 0, 0, 0, 1, 1, 2, 5])
        text = self.pick(PIECES)
        return {"step": "edit", "file": name, "from": at, "to": max(0, to), "text": text}

    def session(self):
        files = self.files()
        return files, [self.step(files) for _ in range(self.pick([2, 6, 12]))]


class RenamingMaker(SessionMaker):
    """Sessions in sound programs, mostly of renames."""

    def __init__(self, seed):
        super().__init__(seed, wild=0.0)

    def files(self):
        for _ in range(8):
            files = thinned(super().files(), self.random, 9)
            try:
                if first_error(Program(files)) is None:
                    return files
            except SourceFault:
                pass
        return files

    def step(self, files):
        if self.pick([True, False, False]):
            return super().step(files)
        name, text = self.pick(files)
        places = [one.start() for one in re.finditer("[A-Za-z_]+", text)]
        at = len(text[: self.pick(places or [0])].encode("utf-8"))
        new = self.pick(["a", "b", "f", "g", "h", "k", "m", "x", "A", "B", "K", "L", "Z"])
        return {"step": "rename", "file": name, "at": at, "name": new}

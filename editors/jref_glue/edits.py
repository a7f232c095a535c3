"""What changed between two texts: as edits of bytes for editors, as a unified diff for people."""

from __future__ import annotations

import re
from difflib import SequenceMatcher
from typing import Iterator, NamedTuple

# Characters beyond ASCII count as parts of words, so that no edit begins or ends inside one.
TOKEN = re.compile(rb"\r\n|[\w\x80-\xff]+|[^\w\x80-\xff]")
FARTHEST = 24
AGREEING = 3


class Edit(NamedTuple):
    """The bytes from `start` up to `end` of the old text give way to `text`."""

    start: int
    end: int
    text: bytes


def between(old: bytes, new: bytes) -> list[Edit]:
    """Edits, in order and apart, that make the new text of the old one."""
    old_lines, new_lines = old.splitlines(keepends=True), new.splitlines(keepends=True)
    starts = _starts(old_lines)
    found = []
    for tag, i1, i2, j1, j2 in line_changes(old_lines, new_lines):
        if tag == "equal":
            continue
        if i2 - i1 == j2 - j1:
            for i, j in zip(range(i1, i2), range(j1, j2)):
                found += _in_line(old_lines[i], new_lines[j], starts[i])
        else:
            found.append(Edit(starts[i1], starts[i2], b"".join(new_lines[j1:j2])))
    return found


def applied(old: bytes, edits: list[Edit]) -> bytes:
    """The text that the edits make of the old one."""
    pieces, at = [], 0
    for edit in edits:
        pieces += [old[at : edit.start], edit.text]
        at = edit.end
    return b"".join([*pieces, old[at:]])


def line_changes(old: list[bytes], new: list[bytes]) -> list[tuple[str, int, int, int, int]]:
    """How the lines of one text give those of another, as `difflib` tells it."""
    if len(old) != len(new) or sum(map(bytes.__ne__, old, new)) > len(old) // 2:
        return SequenceMatcher(None, old, new).get_opcodes()
    runs: list[tuple[str, int, int, int, int]] = []
    for at, (a, b) in enumerate(zip(old, new)):
        tag = "equal" if a == b else "replace"
        first = at
        if runs and runs[-1][0] == tag:
            first = runs.pop()[1]
        runs.append((tag, first, at + 1, first, at + 1))
    return runs


def _starts(lines: list[bytes]) -> list[int]:
    starts = [0]
    for line in lines:
        starts.append(starts[-1] + len(line))
    return starts


def _in_line(old: bytes, new: bytes, start: int) -> Iterator[Edit]:
    """Edits of whole words between two lines, the first of which begins at byte `start`."""
    a, b = TOKEN.findall(old), TOKEN.findall(new)
    i = j = 0
    while i < len(a) or j < len(b):
        if i < len(a) and j < len(b) and a[i] == b[j]:
            start += len(a[i])
            i, j = i + 1, j + 1
            continue
        skipped, taken = _to_agreement(a, b, i, j)
        end = start + sum(map(len, a[i : i + skipped]))
        yield Edit(start, end, b"".join(b[j : j + taken]))
        start, i, j = end, i + skipped, j + taken


def _to_agreement(a: list[bytes], b: list[bytes], i: int, j: int) -> tuple[int, int]:
    """How many words of each side differ before both agree again, or end."""
    for apart in range(1, FARTHEST):
        for skipped in range(apart + 1):
            x, y = i + skipped, j + apart - skipped
            if x > len(a) or y > len(b):
                continue
            if a[x : x + AGREEING] == b[y : y + AGREEING]:
                return skipped, apart - skipped
    return len(a) - i, len(b) - j


class _Known(SequenceMatcher):
    """Changes that are known already, for the grouping that `difflib` does."""

    def __init__(self, changes: list[tuple[str, int, int, int, int]]):
        super().__init__()
        self._changes = changes

    def get_opcodes(self) -> list[tuple[str, int, int, int, int]]:
        return self._changes


def unified(path: str, old: bytes, new: bytes) -> bytes:
    """A unified diff that `git apply` and `patch -p1` read."""
    a, b = _git_lines(old), _git_lines(new)
    groups = list(_Known(line_changes(a, b)).get_grouped_opcodes(3))
    if not groups:
        return b""
    header = f"--- {_header('a', path)}\n+++ {_header('b', path)}\n"
    pieces = [header.encode("utf-8", "surrogateescape")]
    for group in groups:
        first, last = group[0], group[-1]
        spans = _span(first[1], last[2]), _span(first[3], last[4])
        pieces.append(f"@@ -{spans[0]} +{spans[1]} @@\n".encode())
        for tag, i1, i2, j1, j2 in group:
            if tag == "equal":
                pieces += [b" " + line for line in a[i1:i2]]
            else:
                pieces += [b"-" + line for line in a[i1:i2]] + [b"+" + line for line in b[j1:j2]]
    return b"".join(pieces)


def _git_lines(text: bytes) -> list[bytes]:
    """Lines as a diff has them: LF alone ends one, and one without it says so."""
    lines = [line + b"\n" for line in text.split(b"\n")]
    if lines[-1] == b"\n":
        lines.pop()
    else:
        lines[-1] += b"\\ No newline at end of file\n"
    return lines


def _span(start: int, end: int) -> str:
    """A hunk's lines from `start`, from 0, up to `end`."""
    count = end - start
    if count == 1:
        return str(start + 1)
    return f"{start + (count > 0)},{count}"


def _header(side: str, path: str) -> str:
    """A file's name in a diff, as git writes it: quoted where it has to be."""
    name = f"{side}/{path.lstrip('/')}"
    if any(char in '"\\' or ord(char) < 32 or ord(char) == 127 for char in name):
        return '"' + "".join(map(_quoted, name)) + '"'
    return name + "\t" if " " in name else name


def _quoted(char: str) -> str:
    if char in '"\\':
        return "\\" + char
    return f"\\{ord(char):03o}" if ord(char) < 32 or ord(char) == 127 else char

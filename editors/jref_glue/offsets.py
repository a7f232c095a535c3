"""Places of a text: bytes, lines with columns for people, positions of the protocol."""

from __future__ import annotations

import re
import unicodedata
from bisect import bisect_right

WIDE, CUT = 100, "…"
LINE_END = re.compile(rb"\r\n|\r|\n")


class NoPlace(Exception):
    """The text has no such line or column."""


def utf16_length(text: str) -> int:
    """How many 16-bit units the text takes."""
    return len(text) + sum(1 for char in text if ord(char) > 0xFFFF)


def decoded(data: bytes) -> str:
    """The characters; each byte that is none of UTF-8 counts as one."""
    return data.decode("utf-8", "surrogateescape")


class Text:
    """A file's bytes with its lines, which LF, CR or CR LF ends. Bytes are counted from 0."""

    def __init__(self, data: bytes):
        self.data = data
        ends = list(LINE_END.finditer(data))
        self._starts = [0] + [end.end() for end in ends]
        self._ends = [end.start() for end in ends] + [len(data)]
        self._ascii = data.isascii()

    def _line_of(self, at: int) -> int:
        return bisect_right(self._starts, at) - 1

    def line(self, number: int) -> str:
        """The line of that number, from 0, without its end."""
        return decoded(self.data[self._starts[number] : self._ends[number]])

    def _before(self, at: int) -> tuple[int, str]:
        """The line of a byte, from 0, and what stands before the byte on it."""
        number = self._line_of(at)
        return number, decoded(self.data[self._starts[number] : at])

    def point(self, at: int) -> tuple[int, int]:
        """Line and column of a byte as people count them: from 1, a character a column."""
        if self._ascii:
            number = self._line_of(at)
            return number + 1, at - self._starts[number] + 1
        number, before = self._before(at)
        return number + 1, len(before) + 1

    def byte_of_point(self, line: int, column: int) -> int:
        """The byte at a line and column as people count them."""
        if not 1 <= line <= len(self._starts):
            raise NoPlace(f"there is no line {line}, the last one is {len(self._starts)}")
        text = self.line(line - 1)
        if not 1 <= column <= len(text) + 1:
            raise NoPlace(f"line {line} has no column {column}, the last one is {len(text) + 1}")
        return self._starts[line - 1] + self._size(text[: column - 1])

    def position(self, at: int) -> dict[str, int]:
        """The protocol's position of a byte: from 0, in 16-bit units."""
        if self._ascii:
            number = self._line_of(at)
            return {"line": number, "character": at - self._starts[number]}
        number, before = self._before(at)
        return {"line": number, "character": utf16_length(before)}

    def range(self, start: int, end: int) -> dict[str, dict[str, int]]:
        """The protocol's range of a span of bytes."""
        return {"start": self.position(start), "end": self.position(end)}

    def byte_of_position(self, position: dict[str, int]) -> int:
        """The byte of a position of the protocol; one behind a line's end is that end."""
        number, character = position["line"], position["character"]
        if number >= len(self._starts):
            return len(self.data)
        if self._ascii:
            return min(self._starts[number] + character, self._ends[number])
        units = self.line(number).encode("utf-16-le", "surrogatepass")[: 2 * character]
        return self._starts[number] + self._size(units.decode("utf-16-le", "ignore"))

    @staticmethod
    def _size(text: str) -> int:
        return len(text.encode("utf-8", "surrogateescape"))

    def word(self, at: int) -> int:
        """Where the run of word characters at a byte ends, or the one character there."""
        rest = self.line(self._line_of(at))[len(self._before(at)[1]) :]
        found = re.match(r"[\w$]+|.", rest)
        return at + self._size(found.group()) if found else at

    def previous(self, at: int) -> int | None:
        """The byte of the character before `at` on its line, if there is one."""
        before = self._before(at)[1]
        return at - self._size(before[-1]) if before else None

    def shown(self, at: int) -> str:
        """The line of a byte, and a caret under it on a line of its own; of a long line a part."""
        number, before = self._before(at)
        after = self.line(number)[len(before) :]
        if len(before) > WIDE:
            before = CUT + before[-WIDE:]
        if len(after) > WIDE:
            after = after[:WIDE] + CUT
        return f"    {before}{after}\n    {''.join(map(_blank, before))}^"


def _blank(char: str) -> str:
    """What takes as much room on a terminal as the character does."""
    if char == "\t":
        return char
    if unicodedata.combining(char) or unicodedata.category(char) == "Cf":
        return ""
    return "  " if unicodedata.east_asian_width(char) in "WF" else " "

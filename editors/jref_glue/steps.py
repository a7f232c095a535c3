"""The table of refactorings. A row is all that a refactoring takes, here and in the editors."""

from __future__ import annotations

from dataclasses import dataclass
from typing import Iterable

from . import program


@dataclass(frozen=True)
class Row:
    """A refactoring: its command and step, whether it names a place (`at`) or a span, what it asks
    for beside, what it is called, and the protocol's kind where it is offered as an action."""

    command: str
    step: str
    place: str
    asks: tuple[str, ...]
    title: str
    action: str = ""

    def members(self, file: int, start: int, end: int, words: list[str]) -> dict:
        """The step of a script."""
        place = {"at": start} if self.place == "at" else {"from": start, "to": end}
        name = program.staged_name(file)
        return {"step": self.step, "file": name, **place, **dict(zip(self.asks, words))}

    def is_known(self) -> bool:
        """Whether the program has this step."""
        return program.knows(self.members(0, 0, 0, [""] * len(self.asks)))

    @property
    def place_usage(self) -> str:
        """How the place is written."""
        return "FILE:LINE:COL" if self.place == "at" else "FILE:LINE:COL-LINE:COL"

    @property
    def usage(self) -> str:
        """The words behind the command."""
        return " ".join([self.place_usage, *(word.upper() for word in self.asks), "[FILE..]"])


EXTRACT, INLINE, REWRITE = "refactor.extract", "refactor.inline", "refactor.rewrite"

RENAME = Row("rename", "rename", "at", ("name",), "rename what is declared or named there")

ROWS = (
    RENAME,
    Row("extract-local", "extract_local", "span", ("name",), "extract a local", EXTRACT),
    Row("extract-method", "extract_method", "span", ("name",), "extract a method", EXTRACT),
    Row("inline-local", "inline_local", "at", (), "inline the local", INLINE),
    Row("inline-method", "inline_method", "at", (), "inline the method", INLINE),
    Row("pull-up", "pull_up", "at", (), "pull up to the superclass", REWRITE),
    Row("move-static", "move_static", "at", ("class",), "move the static method to a class"),
    Row("move-instance", "move_instance", "at", ("class", "name"), "move the method to a class"),
)


def known(rows: Iterable[Row]) -> list[Row]:
    """Those whose step the program has."""
    return [row for row in rows if row.is_known()]

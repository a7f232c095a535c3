"""What a client asks at a place of a document."""

from __future__ import annotations

from typing import Callable, TypeVar

from . import meaning
from .meaning import Place, Refused
from .program import Stopped
from .protocol import text_edits
from .steps import RENAME, Row
from .workspace import Program, Workspace

Answer = TypeVar("Answer")


class Answers:
    """Answers over a workspace. Each takes a request's parameters and gives its result."""

    def __init__(self, workspace: Workspace):
        self._workspace = workspace
        self.versioned = False
        self.actions: list[Row] = []

    def _at_word(
        self, params: dict, ask: Callable[[Program, int, int], Answer]
    ) -> tuple[Program, Answer]:
        """Asks at the position, and where no name is there, at the one that ends there."""
        program = self._workspace.program()
        file = program.index(params["textDocument"]["uri"])
        text = program.text(file)
        at = text.byte_of_position(params["position"])
        try:
            return program, ask(program, file, at)
        except Refused as refusal:
            before = text.previous(at)
            if refusal.finding.code != "BadTarget" or before is None:
                raise
            try:
                return program, ask(program, file, before)
            except Refused as other:
                raise (refusal if other.finding.code == "BadTarget" else other) from None

    def _uses(self, params: dict) -> tuple[Program, meaning.Uses]:
        return self._at_word(params, lambda it, file, at: meaning.uses(it.sources, file, at))

    def prepare_rename(self, params: dict) -> dict | None:
        """The word that a rename would be of."""

        def ask(program: Program, file: int, at: int) -> Place:
            changed = meaning.trial(program.sources, file, at)
            return next(it for it in changed if it.file == file and it.at <= at < it.end)

        try:
            program, place = self._at_word(params, ask)
        except Refused as refusal:
            if refusal.finding.code == "BadTarget":
                return None
            raise
        word = program.sources[place.file].data[place.at : place.end].decode("utf-8")
        return {"range": program.range(place), "placeholder": word}

    def rename(self, params: dict) -> dict:
        """The edit of a rename."""
        name = params["newName"]

        def ask(program: Program, file: int, at: int) -> dict:
            return self._edit(program, RENAME, file, (at, at), [name])

        return self._at_word(params, ask)[1]

    def _edit(
        self, program: Program, row: Row, file: int, span: tuple[int, int], words: list[str]
    ) -> dict:
        """The edit that a refactoring comes to."""
        stored = meaning.refactored(program.sources, row, file, span, words)
        changes = {
            number: text_edits(program.sources[number].data, new)
            for number, new in sorted(stored.items())
        }
        if not self.versioned:
            return {"changes": {program.uris[number]: it for number, it in changes.items()}}
        return {
            "documentChanges": [
                {
                    "textDocument": {"uri": program.uris[it], "version": program.versions[it]},
                    "edits": changes[it],
                }
                for it in changes
            ]
        }

    def references(self, params: dict) -> list[dict]:
        """Where the same is named, and where it is declared if that is wanted."""
        program, found = self._uses(params)
        places = [ref.place for ref in found.references]
        if params["context"]["includeDeclaration"]:
            places += found.declarations
        return [program.location(place) for place in sorted(places)]

    def definition(self, params: dict) -> list[dict]:
        """Where what is named is declared."""
        program, found = self._uses(params)
        return [program.location(place) for place in found.declarations]

    def highlight(self, params: dict) -> list[dict] | None:
        """The same in this file. It is asked as the cursor moves, so a refusal is no error."""
        try:
            program, found = self._uses(params)
        except (Refused, Stopped):
            return None
        places = [ref.place for ref in found.references] + found.declarations
        here = sorted(place for place in places if place.file == found.asked.file)
        return [{"range": program.range(place), "kind": 1} for place in here]

    def code_action(self, params: dict) -> list[dict]:
        """The refactorings that stand at the place and are accepted."""
        wanted = params.get("context", {}).get("only")
        rows = [row for row in self.actions if _is_wanted(row.action, wanted)]
        try:
            program = self._workspace.program()
            file = program.index(params["textDocument"]["uri"])
        except Stopped:
            return []
        text, span = program.text(file), params["range"]
        ends = text.byte_of_position(span["start"]), text.byte_of_position(span["end"])
        found = [(row, self._tried(program, row, file, ends)) for row in rows]
        return [
            {"title": row.title, "kind": row.action, "edit": edit} for row, edit in found if edit
        ]

    def _tried(self, program: Program, row: Row, file: int, span: tuple[int, int]) -> dict | None:
        """The edit of a refactoring under a name that is free, or None where it is refused."""
        words = [meaning.fresh_name(program.sources, "extracted")] * len(row.asks)
        try:
            return self._edit(program, row, file, span, words)
        except (Refused, Stopped):
            return None


def _is_wanted(kind: str, wanted: list[str] | None) -> bool:
    """Whether a kind of action is one of those that the client wants, or below one."""
    return wanted is None or any(f"{kind}.".startswith(f"{it}.") for it in wanted)

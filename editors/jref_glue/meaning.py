"""What names mean and where they are declared, as runs of jref tell it."""

from __future__ import annotations

import itertools
from typing import Iterator, NamedTuple

from .program import Source, run, staged_name
from .sentences import FILE_FAULTS, RULES, Finding, of_fault, of_refusal
from .steps import RENAME, Row
from .telling import told

AT_ONCE = 16


class Refused(Exception):
    """The program refuses a step over the sources: why, and where."""

    def __init__(self, sources: list[Source], finding: Finding):
        super().__init__(told(sources, finding))
        self.sources = sources
        self.finding = finding


class Place(NamedTuple):
    """A word of the program: its file, and its bytes from `at` up to `end`."""

    file: int
    at: int
    end: int


class Reference(NamedTuple):
    """A bound word, and the declaration that it is bound to."""

    place: Place
    declaration: str


class Uses(NamedTuple):
    """The word that was asked about, the references to the same, and where that is declared."""

    asked: Place
    references: list[Reference]
    declarations: list[Place]


def refactored(
    sources: list[Source], row: Row, file: int, span: tuple[int, int], words: list[str]
) -> dict[int, bytes]:
    """The new bytes of each file that the refactoring changes."""
    for word in words:
        if not _is_text(word):
            bad_name = Finding(file, span[0], f"{word!a} can't be a name", "BadName")
            raise Refused(sources, bad_name)
    done = run(sources, [row.members(file, *span, words)])
    refusal = _refusal(done.replies[0])
    if refusal and refusal.file is None:
        refusal = refusal._replace(file=file, at=span[0])
    if refusal:
        raise Refused(sources, refusal)
    return done.stored


def _is_text(word: str) -> bool:
    """Whether a script can have the word: it may be bytes of a command line that are no text."""
    try:
        word.encode("utf-8")
    except UnicodeEncodeError:
        return False
    return True


def _refusal(reply: dict) -> Finding | None:
    return of_refusal(reply["refusal"]) if reply["reply"] == "refused" else None


def _show(file: int) -> dict:
    return {"step": "show", "file": staged_name(file), "what": "bindings"}


def _shown(sources: list[Source], files: list[int]) -> Iterator[tuple[int, list[str]]]:
    """The lines of each file. They go into as many reports as they need."""
    while files:
        replies = run(sources, [_show(file) for file in files]).replies
        for count, (file, reply) in enumerate(zip(files, replies)):
            refusal = _refusal(reply)
            if refusal and refusal.code == "ReportFull" and count:
                files = files[count:]
                break
            if refusal:
                raise Refused(sources, refusal)
            yield file, reply["lines"]
        else:
            return


def _parsed(line: str) -> tuple[int, str, str]:
    """A line of a show: its byte, its word, and the declaration or rule."""
    at, word, what = line.split(" ")
    return int(at), word, what


def _is_broken(word: str, what: str) -> bool:
    """Whether a line tells a broken rule; a word of the program may be `error` too."""
    return word == "error" and what in RULES


def _references(file: int, lines: list[str]) -> Iterator[Reference]:
    for at, word, what in map(_parsed, lines):
        if not _is_broken(word, what):
            yield Reference(Place(file, at, at + len(word.encode())), what)


def problems(sources: list[Source]) -> list[Finding]:
    """What keeps the files from being a sound program: faults, or else broken rules."""
    try:
        shown = list(_shown(sources, list(range(len(sources)))))
    except Refused as refusal:
        return list(_faults(sources, refusal.finding))
    return [
        of_fault(file, at, what)
        for file, lines in shown
        for at, word, what in map(_parsed, lines)
        if _is_broken(word, what)
    ]


def _faults(sources: list[Source], first: Finding) -> Iterator[Finding]:
    """The first fault, and where it is a file's own, the first of each later file that has one."""
    yield first
    if first.code not in FILE_FAULTS:
        return
    at = first.file + 1
    while at < len(sources):
        some = sources[at : at + AT_ONCE]
        fault = _first_fault(some)
        if fault and fault.code in FILE_FAULTS:
            yield fault._replace(file=at + fault.file)
            at += fault.file + 1
        else:
            at += len(some)


def _first_fault(sources: list[Source]) -> Finding | None:
    """The first fault of files that are looked at without the others: their own come first."""
    return _refusal(run(sources, [_show(0)]).replies[0])


def fresh_name(sources: list[Source], stem: str) -> str:
    """A name that no text has in it anywhere."""
    for count in itertools.count(1):
        name = f"{stem}{count}"
        if not any(name.encode() in source.data for source in sources):
            return name
    raise AssertionError("names don't end")


def trial(sources: list[Source], file: int, at: int) -> list[Place]:
    """The words that a rename of what is named at the byte changes, by renaming it to a fresh name.

    No text has that name, so where it stands afterwards a word was changed, and all those words
    are the same one; what is left between them is as it was, or the trial tells nothing."""
    name = fresh_name(sources, "x")
    stored = refactored(sources, RENAME, file, (at, at), [name])
    return [
        place
        for changed, text in sorted(stored.items())
        for place in _changed_words(sources, changed, text.split(name.encode()))
    ]


def _changed_words(sources: list[Source], file: int, pieces: list[bytes]) -> Iterator[Place]:
    """Where one word stands in the old text between the pieces of the new one."""
    old = sources[file].data
    length = (len(old) - sum(map(len, pieces))) // (len(pieces) - 1)
    word = old[len(pieces[0]) : len(pieces[0]) + length]
    if word.join(pieces) != old:
        unclear = Finding(file, None, "the places that a rename changes can't be told", "Trial")
        raise Refused(sources, unclear)
    at = 0
    for piece in pieces[:-1]:
        at += len(piece)
        yield Place(file, at, at + length)
        at += length


def _at(places: list[Place], file: int, at: int) -> Place | None:
    for place in places:
        if place.file == file and place.at <= at < place.end:
            return place
    return None


def uses(sources: list[Source], file: int, at: int) -> Uses:
    """What is known of the word at a byte: all that is bound as it is, and its declarations.

    At a declaration these are the references to all that would be renamed with it. Where a rename
    is refused no declaration is known."""
    shown = _shown(sources, list(range(len(sources))))
    bound = {ref.place: ref for number, lines in shown for ref in _references(number, lines)}
    asked = _at(list(bound), file, at)
    try:
        changed = trial(sources, file, at)
    except Refused:
        if asked is None:
            raise
        changed = []
    if asked:
        same = [ref for ref in bound.values() if ref.declaration == bound[asked].declaration]
    else:
        same = [bound[place] for place in changed if place in bound]
    declared = [place for place in changed if place not in bound]
    return Uses(asked or _at(changed, file, at), same, declared)

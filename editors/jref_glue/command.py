"""The command `jref-at`."""

from __future__ import annotations

import argparse
import json
import os
import re
import sys

from . import VERSION, edits, meaning, protocol, steps
from .meaning import Refused
from .offsets import NoPlace
from .program import MISUSE, UNREAD, UNWRITTEN, Source, Stopped
from .replacing import Change, replace_all
from .sentences import Finding, spoken
from .telling import pointed

DESCRIPTION = "Asks jref at a line and a column: both from 1, a character a column."
ENDING = """\
All named files together are the program, so name each that belongs to it; FILE of the place need
not be named twice. Words that begin with - may follow after --.

The command ends with 0; with 1 where something is refused or wrong; and else as jref does: 2 usage,
3 a file can't be read, 4 one can't be written, 6 a file is no source, 7 no memory; and with 8 where
jref gave no answer. The program jref is $JREF, else crates/jref/out/jref beside this folder, else
the one on PATH.
"""
WRITING = """
With --write all new files are prepared, and then each replaces its old one; where one can't, those
that are done are put back. A process that is killed meanwhile may leave some files replaced.
"""
INTERRUPTED = 130
PLACE = re.compile(
    r"(?P<file>.+?):(?P<line>\d+):(?P<column>\d+)(-(?P<last>\d+):(?P<end>\d+))?", re.DOTALL
)


def main(words: list[str]) -> int:
    """Does what the words ask for, and gives the number to end with."""
    for stream in (sys.stdout, sys.stderr):
        stream.reconfigure(encoding="utf-8", errors="surrogateescape")
    asked = _parser(words).parse_args(words)
    try:
        status = asked.work(asked)
        sys.stdout.flush()
    except Refused as refusal:
        print(pointed(refusal.sources, refusal.finding), file=sys.stderr)
        status = 1
    except Stopped as stop:
        print(": ".join(filter(None, ["jref-at", stop.path, stop.sentence])), file=sys.stderr)
        status = stop.status
    except OSError as fault:
        os.dup2(os.open(os.devnull, os.O_WRONLY), sys.stdout.fileno())
        print(f"jref-at: can't write: {fault.strerror}", file=sys.stderr)
        status = UNWRITTEN
    except KeyboardInterrupt:
        status = INTERRUPTED
    return status


def _parser(words: list[str]) -> argparse.ArgumentParser:
    """The words that are understood. A refactoring that jref doesn't have isn't among them."""
    shape = {"formatter_class": argparse.RawDescriptionHelpFormatter, "allow_abbrev": False}
    parser = argparse.ArgumentParser(
        prog="jref-at", description=DESCRIPTION, epilog=ENDING, **shape
    )
    parser.add_argument("--version", action="version", version=f"jref-at {VERSION}")
    commands = parser.add_subparsers(required=True, metavar="COMMAND", title="commands")
    for row in _offered(words):
        usage = f"jref-at {row.command} [--write | --json] {row.usage}"
        found = commands.add_parser(
            row.command, help=row.title, usage=usage, epilog=ENDING + WRITING, **shape
        )
        _add_words(found, row)
    check = commands.add_parser("check", help="tell what is wrong", epilog=ENDING, **shape)
    check.add_argument("files", nargs="+", metavar="FILE")
    check.set_defaults(work=_check)
    refs = commands.add_parser("refs", help="tell each use and declaration", epilog=ENDING, **shape)
    refs.add_argument("place", metavar="FILE:LINE:COL")
    refs.add_argument("files", nargs="*", metavar="FILE")
    refs.set_defaults(work=_refs)
    return parser


def _add_words(parser: argparse.ArgumentParser, row: steps.Row) -> None:
    """What follows the command of a refactoring."""
    parser.add_argument("place", metavar=row.place_usage)
    for word in row.asks:
        parser.add_argument(word, metavar=word.upper())
    parser.add_argument("files", nargs="*", metavar="FILE", help="the program's other files")
    how = parser.add_mutually_exclusive_group()
    how.add_argument("--write", action="store_true", help="replace the files, and name each")
    how.add_argument("--json", action="store_true", help="print a WorkspaceEdit of the protocol")
    parser.set_defaults(work=_refactor, row=row)


def _offered(words: list[str]) -> list[steps.Row]:
    """The refactorings that jref has; only the one that is asked for, where it is one of them."""
    asked = [row for row in steps.ROWS if row.command in words[:1]]
    if words[:1] in (["check"], ["refs"], ["--version"]):
        return []
    try:
        return steps.known(asked) or steps.known(steps.ROWS)
    except Stopped:
        return [steps.RENAME]


def _refactor(asked: argparse.Namespace) -> int:
    """Puts the new texts as a diff or a WorkspaceEdit, or into the files."""
    sources, start, end = _read_at(asked, spans=asked.row.place == "span")
    words = [getattr(asked, name) for name in asked.row.asks]
    stored = meaning.refactored(sources, asked.row, 0, (start, end), words)
    changes = [
        Change(sources[file].path, sources[file].data, new) for file, new in sorted(stored.items())
    ]
    if asked.json:
        changed = {protocol.uri_of(it.path): protocol.text_edits(it.old, it.new) for it in changes}
        print(json.dumps({"changes": changed}))
    elif asked.write:
        replace_all(changes)
        for it in changes:
            print(it.path)
    else:
        for it in changes:
            sys.stdout.buffer.write(edits.unified(it.path, it.old, it.new))
    return 0


def _check(asked: argparse.Namespace) -> int:
    """Tells all that is wrong with the files."""
    sources = _read(asked.files)
    findings = meaning.problems(sources)
    for finding in findings:
        print(pointed(sources, finding))
    return 1 if findings else 0


def _refs(asked: argparse.Namespace) -> int:
    """Tells where the same is declared and named."""
    sources, start, _ = _read_at(asked, spans=False)
    found = meaning.uses(sources, 0, start)
    said = [(place, "this is declared here") for place in found.declarations]
    said += [(ref.place, f"{spoken(ref.declaration)} is named here") for ref in found.references]
    for place, sentence in sorted(said):
        print(pointed(sources, Finding(place.file, place.at, sentence, "")))
    return 0


def _read_at(asked: argparse.Namespace, spans: bool) -> tuple[list[Source], int, int]:
    """The files, and the bytes of the place in the first one."""
    where = PLACE.fullmatch(asked.place)
    if not where or spans != bool(where["last"]):
        wanted = "FILE:LINE:COL-LINE:COL" if spans else "FILE:LINE:COL"
        raise Stopped(MISUSE, f"{asked.place} isn't {wanted}")
    sources = _read([where["file"], *asked.files])
    text = sources[0].text
    try:
        start = text.byte_of_point(int(where["line"]), int(where["column"]))
        end = text.byte_of_point(int(where["last"]), int(where["end"])) if spans else start
    except NoPlace as fault:
        raise Refused(sources, Finding(0, None, str(fault), "BadPlace")) from fault
    return sources, start, end


def _read(paths: list[str]) -> list[Source]:
    """The files, each once, however often and under whatever names it is listed."""
    found: dict[str, Source] = {}
    for path in paths:
        real = os.path.realpath(path)
        if real in found:
            continue
        try:
            with open(path, "rb") as file:
                found[real] = Source(path, file.read())
        except (OSError, ValueError) as fault:
            raise Stopped(UNREAD, f"can't be read: {fault}", path) from fault
    return list(found.values())

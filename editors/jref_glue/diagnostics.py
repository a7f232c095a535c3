"""Diagnostics: what is wrong with the program, and what keeps it from being refactored."""

from __future__ import annotations

from collections import defaultdict

from . import meaning
from .program import Stopped
from .protocol import uri_of
from .sentences import Finding
from .telling import told
from .workspace import SETTING, Program, Workspace

ERROR, INFORMATION = 1, 3
TOP = {"start": {"line": 0, "character": 0}, "end": {"line": 0, "character": 0}}
CHOOSE = f"nothing is refactored before it is mended, or left out by the setting {SETTING}"


def of_workspace(workspace: Workspace) -> dict[str, list[dict]]:
    """The diagnostics of each file, by its URI, with an empty list where there are none."""
    found: dict[str, list[dict]] = defaultdict(list)
    for document in workspace.documents.values():
        found[document.uri] = []
    try:
        program = workspace.program()
        problems = meaning.problems(program.sources)
    except Stopped as stop:
        _tell_stop(found, stop)
        return found
    for uri in program.uris:
        found.setdefault(uri, [])
    _tell_elsewhere(found, workspace, program, problems)
    for problem in problems:
        if problem.file is not None:
            found[program.uris[problem.file]].append(_of_finding(program, problem))
    return found


def _tell_stop(found: dict[str, list[dict]], stop: Stopped) -> None:
    """Why there is no answer: at the file that it is about, and in what is open."""
    sentence = f"{stop.path}: {stop.sentence}; {CHOOSE}" if stop.path else stop.sentence
    for uri in list(found):
        found[uri].append(_diagnostic(TOP, sentence, "Stopped", ERROR))
    if stop.path and uri_of(stop.path) not in found:
        found[uri_of(stop.path)].append(_diagnostic(TOP, stop.sentence, "Stopped", ERROR))


def _tell_elsewhere(
    found: dict[str, list[dict]], workspace: Workspace, program: Program, problems: list[Finding]
) -> None:
    """Tells in what is open the first problem of a file that isn't, where nobody might see it."""
    is_open = {document.uri for document in workspace.documents.values()}
    hidden = [it for it in problems if it.file is None or program.uris[it.file] not in is_open]
    if not hidden:
        return
    first = hidden[0]
    files = {it.file for it in hidden}
    others = f" (and {len(files) - 1} more files)" if len(files) > 1 else ""
    sentence = f"{told(program.sources, first)}{others}; {CHOOSE}"
    for uri in is_open:
        found[uri].append(_diagnostic(TOP, sentence, first.code, INFORMATION))


def _of_finding(program: Program, finding: Finding) -> dict:
    """A problem at its word."""
    text = program.text(finding.file)
    at = finding.at or 0
    return _diagnostic(text.range(at, text.word(at)), finding.sentence, finding.code, ERROR)


def _diagnostic(place: dict, sentence: str, code: str, severity: int) -> dict:
    return {
        "range": place,
        "severity": severity,
        "code": code,
        "source": "jref",
        "message": sentence,
    }

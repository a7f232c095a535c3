"""Finds the program `jref`, and runs scripts over files that are staged for it."""

from __future__ import annotations

import json
import os
import shutil
import subprocess
import tempfile
from dataclasses import dataclass
from functools import cached_property
from pathlib import Path

from .offsets import Text

TOP = Path(__file__).resolve().parents[2]
LARGEST_FILE = 1_048_576
MOST_FILES = 256
MISUSE, UNREAD, UNWRITTEN, BAD_SCRIPT, BAD_SOURCE, NO_MEMORY, NO_ANSWER = 2, 3, 4, 5, 6, 7, 8


class Stopped(Exception):
    """The work ended without an answer: the number to end with, why, and the file it is about."""

    def __init__(self, status: int, sentence: str, path: str | None = None):
        super().__init__(sentence)
        self.status = status
        self.sentence = sentence
        self.path = path


@dataclass
class Source:
    """A file of the program: how it is called in front of people, and its bytes."""

    path: str
    data: bytes

    @cached_property
    def text(self) -> Text:
        """The same bytes, with their lines."""
        return Text(self.data)


@dataclass
class Run:
    """What a run came to: a reply for each step, and the new bytes of each changed file."""

    replies: list[dict]
    stored: dict[int, bytes]


def find() -> str:
    """The program: $JREF, else the one that the project has built, else the one on PATH."""
    named = os.environ.get("JREF")
    built = TOP / "crates" / "jref" / "out" / "jref"
    found = named or (str(built) if built.is_file() else shutil.which("jref"))
    if not found:
        raise Stopped(NO_ANSWER, "there is no program jref: build it, or name it in $JREF")
    return os.path.abspath(found)


def staged_name(index: int) -> str:
    """What the file of that number is called while jref works."""
    return f"{index}.java"


def index_of(name: str) -> int:
    """The number of the file that is staged under a name."""
    return int(name[: -len(".java")])


def run(sources: list[Source], steps: list[dict]) -> Run:
    """Does the steps to the files, on copies under names of their own. Nothing else is touched.

    A step's `file` is the staged name of a source."""
    with tempfile.TemporaryDirectory(prefix="jref-") as folder:
        names = [staged_name(index) for index in range(len(sources))]
        for name, source in zip(names, sources):
            Path(folder, name).write_bytes(source.data)
        Path(folder, "script").write_text(json.dumps(steps), encoding="ascii")
        Path(folder, "out").mkdir()
        done = _call(["run", "--out", "out", "script", *names], folder)
        if done.returncode not in (0, 1):
            raise _stopped(done, sources)
        return Run(_report(done.stdout), _stored(Path(folder, "out")))


def knows(step: dict) -> bool:
    """Whether the program has a step of this word and these members."""
    try:
        run([Source("", b"")], [step])
    except Stopped as stop:
        if stop.status == BAD_SCRIPT:
            return False
        raise
    return True


def _call(words: list[str], folder: str) -> subprocess.CompletedProcess:
    program = find()
    try:
        return subprocess.run(
            [program, *words], cwd=folder, stdin=subprocess.DEVNULL, capture_output=True
        )
    except OSError as fault:
        raise Stopped(NO_ANSWER, f"{program} can't be run: {fault.strerror}") from fault


def _report(output: bytes) -> list[dict]:
    try:
        return json.loads(output)
    except ValueError as fault:
        raise Stopped(NO_ANSWER, "jref's report can't be read") from fault


def _stored(folder: Path) -> dict[int, bytes]:
    return {index_of(path.name): path.read_bytes() for path in folder.iterdir()}


def _stopped(done: subprocess.CompletedProcess, sources: list[Source]) -> Stopped:
    """Why there is no report, by the number that the process ended with."""
    message = done.stderr.decode("utf-8", "replace").strip()
    if done.returncode == BAD_SOURCE:
        source = index_of(message.rsplit(" ", 1)[1])
        return Stopped(BAD_SOURCE, _bad_source(sources, source), sources[source].path)
    if done.returncode in (BAD_SCRIPT, NO_MEMORY, UNREAD, UNWRITTEN):
        return Stopped(done.returncode, message)
    return Stopped(NO_ANSWER, f"jref ended with {done.returncode}: {message}")


def _bad_source(sources: list[Source], index: int) -> str:
    """Why the file of that number is no source, of the causes in their order."""
    if index >= MOST_FILES:
        return f"there are {len(sources)} files, more than the {MOST_FILES} that a program may have"
    if len(sources[index].data) > LARGEST_FILE:
        return f"the file has more than {LARGEST_FILE:,} bytes"
    try:
        sources[index].data.decode("utf-8")
    except UnicodeDecodeError as fault:
        return f"the file isn't UTF-8 at its byte {fault.start}"
    return "up to this file there are more than 8,388,608 bytes"

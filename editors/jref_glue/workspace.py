"""The documents that an editor has open, and the files that are the program."""

from __future__ import annotations

import os
from dataclasses import dataclass, field
from fnmatch import fnmatchcase
from typing import Iterator

from .meaning import Place
from .offsets import Text
from .program import BAD_SOURCE, MOST_FILES, UNREAD, Source, Stopped
from .protocol import path_of, uri_of

SETTING = "jref.files"


@dataclass
class Document:
    """A file as the editor has it."""

    uri: str
    path: str
    version: int | None
    data: bytes


@dataclass
class Program:
    """The program at a moment: its sources, and of each the URI and what the editor has of it."""

    sources: list[Source]
    uris: list[str]
    versions: list[int | None]

    def index(self, uri: str) -> int:
        """The number of the file of a URI."""
        path = path_of(uri) or uri
        real = os.path.realpath(path)
        for number, source in enumerate(self.sources):
            if os.path.realpath(source.path) == real:
                return number
        raise Stopped(BAD_SOURCE, "this isn't one of the program's files", path)

    def text(self, file: int) -> Text:
        """The text of a file."""
        return self.sources[file].text

    def location(self, place: Place) -> dict:
        """The protocol's location of a word."""
        return {"uri": self.uris[place.file], "range": self.range(place)}

    def range(self, place: Place) -> dict:
        """The protocol's range of a word."""
        return self.text(place.file).range(place.at, place.end)


@dataclass
class Workspace:
    """The folders, the open documents by their real paths, and the user's choice of files."""

    roots: list[str] = field(default_factory=list)
    chosen: list[str] | None = None
    documents: dict[str, Document] = field(default_factory=dict)

    def put(self, uri: str, version: int | None, text: str) -> None:
        """Takes what the editor has of a document."""
        path = path_of(uri)
        if path is not None:
            data = text.encode("utf-8", "surrogatepass")
            self.documents[os.path.realpath(path)] = Document(uri, path, version, data)

    def drop(self, uri: str) -> None:
        """The editor has closed a document."""
        self.documents.pop(os.path.realpath(path_of(uri) or ""), None)

    def program(self) -> Program:
        """The program's files, as the editor has them where it does, else as they are on disk."""
        paths = self._paths()
        if len(paths) > MOST_FILES:
            why = f"there are {len(paths)} Java files, more than the {MOST_FILES} of a program"
            raise Stopped(BAD_SOURCE, f"{why}: name those that are it in the setting {SETTING}")
        found = Program([], [], [])
        for real, path in paths.items():
            document = self.documents.get(real)
            data = document.data if document else _read(path)
            found.sources.append(Source(path, data))
            found.uris.append(document.uri if document else uri_of(path))
            found.versions.append(document.version if document else None)
        return found

    def _paths(self) -> dict[str, str]:
        """The files by their real paths, in the order of their names."""
        found = {document.path for document in self.documents.values() if self._is_inside(document)}
        for root in self.roots:
            found.update(_java_files(root))
        if self.chosen is not None:
            found = self._chosen(found)
        paths: dict[str, str] = {}
        for path in sorted(found):
            paths.setdefault(os.path.realpath(path), path)
        return paths

    def _is_inside(self, document: Document) -> bool:
        """Whether a document is the workspace's: all are where there is no folder."""
        inside = any(_is_below(document.path, root) for root in self.roots) or not self.roots
        return inside and document.path.endswith(".java")

    def _chosen(self, found: set[str]) -> set[str]:
        """The files that the setting names. One of its words that names none is told."""
        taken = set()
        for pattern in self.chosen:
            some = {path for path in found if self._is_named(path, pattern)}
            if not some:
                raise Stopped(BAD_SOURCE, f"{pattern} of the setting {SETTING} names no Java file")
            taken |= some
        return taken

    def _is_named(self, path: str, pattern: str) -> bool:
        names = [path, *(os.path.relpath(path, root) for root in self.roots)]
        return any(fnmatchcase(name, pattern) for name in names)


def _is_below(path: str, root: str) -> bool:
    real, real_root = os.path.realpath(path), os.path.realpath(root)
    return os.path.commonpath([real, real_root]) == real_root


def _java_files(root: str) -> Iterator[str]:
    for folder, folders, names in os.walk(root):
        folders[:] = [name for name in folders if not name.startswith(".")]
        for name in names:
            if name.endswith(".java") and os.path.isfile(os.path.join(folder, name)):
                yield os.path.join(folder, name)


def _read(path: str) -> bytes:
    try:
        with open(path, "rb") as file:
            return file.read()
    except OSError as fault:
        raise Stopped(UNREAD, f"can't be read: {fault.strerror}", path) from fault

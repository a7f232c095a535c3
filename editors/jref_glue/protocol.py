"""Shapes of the Language Server Protocol that answers are made of."""

from __future__ import annotations

import os
from urllib.parse import quote, unquote, urlsplit

from . import edits
from .offsets import Text


def uri_of(path: str) -> str:
    """The file's URI."""
    return "file://" + quote(os.path.abspath(path), errors="surrogateescape")


def path_of(uri: str) -> str | None:
    """The path of a URI, if it is a file's."""
    parts = urlsplit(uri)
    return unquote(parts.path, errors="surrogateescape") if parts.scheme == "file" else None


def text_edits(old: bytes, new: bytes) -> list[dict]:
    """Edits of the old text. They are applied here first, and have to give the new one."""
    text = Text(old)
    found = [
        {"range": text.range(edit.start, edit.end), "newText": edit.text.decode("utf-8")}
        for edit in edits.between(old, new)
    ]
    if edits.applied(old, [_edit(text, it) for it in found]) != new:
        raise AssertionError("the edits don't give the text that jref has stored")
    return found


def _edit(text: Text, told: dict) -> edits.Edit:
    """An edit as an editor reads it."""
    ends = (text.byte_of_position(told["range"][side]) for side in ("start", "end"))
    return edits.Edit(*ends, told["newText"].encode("utf-8"))

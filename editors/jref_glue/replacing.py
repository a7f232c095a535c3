"""Replaces files on disk: all of them or none, as far as a process can."""

from __future__ import annotations

import os
import stat
import tempfile
from dataclasses import dataclass
from pathlib import Path

from .program import UNWRITTEN, Stopped


@dataclass
class Change:
    """A file, the bytes that it has, and those that it gets."""

    path: str
    old: bytes
    new: bytes


@dataclass
class _Prepared:
    """A change whose new file, and a copy of the old one, lie ready beside the file itself."""

    path: str
    target: Path
    new: str
    kept: str


def replace_all(changes: list[Change]) -> None:
    """Prepares every new file, then replaces each; where one can't be, puts back those that are.

    Symbolic links are followed, and modes and owners stay. A file with several hard links is
    refused, since its other names would keep the old text, and one that isn't as it was read."""
    prepared: list[_Prepared] = []
    try:
        for change in changes:
            _check(change)
        for change in changes:
            prepared.append(_prepare(change))
        _replace(prepared)
    finally:
        for ready in prepared:
            _remove(ready.new)
            _remove(ready.kept)


def _check(change: Change) -> None:
    try:
        found = os.stat(change.path)
        same = Path(change.path).read_bytes() == change.old
    except OSError as fault:
        raise _unwritten(change.path, fault.strerror) from fault
    if not stat.S_ISREG(found.st_mode):
        raise _unwritten(change.path, "it is no plain file")
    if not os.access(change.path, os.W_OK):
        raise _unwritten(change.path, "it may only be read")
    if found.st_nlink > 1:
        raise _unwritten(change.path, "it has several hard links")
    if not same:
        raise _unwritten(change.path, "it isn't as it was read")


def _prepare(change: Change) -> _Prepared:
    target = Path(os.path.realpath(change.path))
    made: list[str] = []
    try:
        found = os.stat(target)
        for data in (change.new, change.old):
            made.append(_copy(target, data, found))
        os.utime(made[1], ns=(found.st_atime_ns, found.st_mtime_ns))
    except OSError as fault:
        for path in made:
            _remove(path)
        raise _unwritten(change.path, fault.strerror) from fault
    return _Prepared(change.path, target, *made)


def _copy(target: Path, data: bytes, like: os.stat_result) -> str:
    """A file beside the target with these bytes, and the target's owner and mode."""
    handle, path = tempfile.mkstemp(prefix=".jref-", dir=target.parent)
    try:
        with open(handle, "wb") as file:
            file.write(data)
            made = os.fstat(handle)
            if (made.st_uid, made.st_gid) != (like.st_uid, like.st_gid):
                os.fchown(handle, like.st_uid, like.st_gid)
            os.fchmod(handle, stat.S_IMODE(like.st_mode))
    except OSError:
        _remove(path)
        raise
    return path


def _replace(prepared: list[_Prepared]) -> None:
    done: list[_Prepared] = []
    try:
        for ready in prepared:
            done.append(ready)
            os.replace(ready.new, ready.target)
    except BaseException as fault:
        failed = done.pop() if isinstance(fault, OSError) else None
        _put_back(done)
        if failed:
            raise _unwritten(failed.path, f"{fault.strerror}; all files are as before") from fault
        raise


def _put_back(done: list[_Prepared]) -> None:
    """The old files, in their places again. One that can't be put there is kept, and told."""
    left = []
    for ready in reversed(done):
        try:
            os.replace(ready.kept, ready.target)
        except OSError:
            left.append(f"{ready.path} has its new text, and its old one is in {ready.kept}")
            ready.kept = ""
    if left:
        raise Stopped(UNWRITTEN, "; ".join(left))


def _remove(path: str) -> None:
    try:
        os.unlink(path)
    except OSError:
        pass


def _unwritten(path: str, why: str | None) -> Stopped:
    return Stopped(UNWRITTEN, f"can't be written: {why}", path)

"""Messages of the Language Server Protocol on a pair of streams."""

from __future__ import annotations

import json
from typing import BinaryIO


class Garbled(Exception):
    """What was read is no message."""


def read(stream: BinaryIO) -> dict | None:
    """The next message, or None at the stream's end."""
    length = None
    while True:
        line = stream.readline()
        if not line:
            return None
        if line in (b"\r\n", b"\n"):
            break
        name, _, value = line.partition(b":")
        if name.strip().lower() == b"content-length" and value.strip().isdigit():
            length = int(value)
    if length is None:
        raise Garbled("a message without its length")
    try:
        message = json.loads(stream.read(length))
    except (ValueError, RecursionError) as fault:
        raise Garbled("a message that is no JSON") from fault
    if not isinstance(message, dict):
        raise Garbled("a message that is no object")
    return message


def write(stream: BinaryIO, message: dict) -> None:
    """Sends a message."""
    body = json.dumps({"jsonrpc": "2.0", **message}).encode("ascii")
    stream.write(b"Content-Length: %d\r\n\r\n%s" % (len(body), body))
    stream.flush()

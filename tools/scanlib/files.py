"""Files given on the command line; `-` is standard input or output."""

from __future__ import annotations

import sys
from pathlib import Path
from typing import NamedTuple

from .errors import ToolError, shown
from .lines import Lines, Numbered, Place
from .notation import parse_lines
from .records import Item, from_bytes, to_bytes

MOST_BYTES = 2**24


def read_bytes(name: str) -> bytes:
    try:
        data = _some_bytes(name)
    except (OSError, ValueError) as error:
        raise ToolError(f"{_called(name)} cannot be read: {getattr(error, 'strerror', error)}") from None
    if len(data) > MOST_BYTES:
        raise ToolError(f"{_called(name)} has more than {MOST_BYTES} bytes")
    return data


def _called(name: str) -> str:
    return "standard input" if name == "-" else shown(name)


def _some_bytes(name: str) -> bytes:
    """All bytes, or one more than there may be: a device gives them without end."""
    if name == "-":
        if sys.stdin is None:
            raise ToolError("standard input is closed")
        return sys.stdin.buffer.read(MOST_BYTES + 1)
    with open(name, "rb") as file:
        return file.read(MOST_BYTES + 1)


def read_text(name: str) -> str:
    """The text, without the byte order mark that some editors put before it."""
    data = read_bytes(name)
    try:
        text = data.decode("utf-8-sig")
    except UnicodeDecodeError:
        text = "\0"
    if "\0" in text:
        raise ToolError(f"{_called(name)} is not text in UTF-8; job bytes are shown by `decode` and run with --bytes")
    return text


class Source(NamedTuple):
    """A job and its calls, and where their bytes stand in the file."""

    items: list[Item]
    place: Place


def read_source(name: str, is_bytes: bool) -> Source:
    """Bytes of a text that make up a record are one, however they were written."""
    if is_bytes:
        items = from_bytes(read_bytes(name))
        return Source(items, Lines([Numbered(line, item) for line, item in enumerate(items, start=1)]).in_bytes)
    written = parse_lines(read_text(name))
    return Source(from_bytes(to_bytes([item for _, item in written])), Lines(written).in_text)


def write_bytes(name: str, data: bytes) -> None:
    if name == "-":
        if sys.stdout.isatty():
            raise ToolError("bytes are not for a terminal: name a file with -o, or put a pipe behind")
        sys.stdout.buffer.write(data)
        return
    try:
        Path(name).write_bytes(data)
    except (OSError, ValueError) as error:
        raise ToolError(f"{shown(name)} cannot be written: {getattr(error, 'strerror', error)}") from None

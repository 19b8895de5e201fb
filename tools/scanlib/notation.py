"""Document 01's notation: one record a line, or several on a line with commas between them."""

from __future__ import annotations

import re

from .counting import LARGEST, as_number, counted
from .errors import ToolError, shown
from .lines import Numbered
from .records import FIELDS, Item, Raw, Record

HEX = "HEX"
HEX_BYTES_A_LINE = 16
LINE_END = re.compile(r"\r\n|\r|\n")
COMMENT = re.compile(r"#|//")


class NotationError(ToolError):
    """Where a text is wrong, and what was expected there."""

    def __init__(self, number: int, line: str, expected: str):
        super().__init__(f"line {number}: {shown(line)}\n  expected {expected}")


class _Wrong(Exception):
    """What was expected of one record."""


def parse(text: str) -> list[Item]:
    """The records of a text. `#` begins a comment, and so does `//`."""
    return [item for _, item in parse_lines(text)]


def parse_lines(text: str) -> list[Numbered]:
    """The same, each record with the number of its line."""
    items: list[Numbered] = []
    for number, line in enumerate(LINE_END.split(text), start=1):
        for part in COMMENT.split(line)[0].replace(";", ",").split(","):
            try:
                items.extend(Numbered(number, item) for item in _part(part.split()))
            except _Wrong as wrong:
                raise NotationError(number, line, str(wrong)) from None
    return items


def _part(tokens: list[str]) -> list[Item]:
    """What stands between two commas: nothing, one record, or several steps as in `ST ST ST`."""
    if not tokens:
        return []
    mark, fields = tokens[0], tokens[1:]
    if mark == HEX:
        return [Raw(_hex_bytes(fields))]
    if mark not in FIELDS:
        raise _Wrong(f"one of the marks {', '.join(FIELDS)} or {HEX}; found {shown(mark)}")
    if mark == "ST" and all(token == "ST" for token in fields):
        return [Record("ST")] * len(tokens)
    return [Record(mark, _fields(mark, fields))]


def _fields(mark: str, tokens: list[str]) -> tuple[int, ...]:
    names = FIELDS[mark]
    if len(tokens) < len(names) or (mark != "SP" and len(tokens) > len(names)):
        raise _Wrong(f"{form(mark)}; found {counted(len(tokens), 'number')}")
    fields = tuple(_number(token) for token in tokens)
    if mark == "SP" and len(fields) != 3 + 2 * fields[2]:
        runs = counted(fields[2], "run")
        raise _Wrong(
            f"{form(mark)}: a start and a length for {runs}; found {counted(len(fields) - 3, 'number')} after the count"
        )
    return fields


def form(mark: str) -> str:
    """How a record of this mark is written."""
    more = " then start length for each run" if mark == "SP" else ""
    return " ".join((mark,) + FIELDS[mark]) + more


def _number(token: str) -> int:
    number = as_number(token)
    if number is None:
        raise _Wrong(f"a number from 0 to {LARGEST}; found {shown(token)}")
    return number


def _hex_bytes(tokens: list[str]) -> bytes:
    for token in tokens:
        if len(token) != 2 or any(c not in "0123456789abcdefABCDEF" for c in token):
            raise _Wrong(f"{HEX} and bytes of two hexadecimal digits each; found {shown(token)}")
    if not tokens:
        raise _Wrong(f"{HEX} and at least one byte")
    return bytes(int(token, 16) for token in tokens)


def _item_lines(item: Item) -> list[str]:
    if isinstance(item, Record):
        return [" ".join([item.mark, *map(str, item.fields)])]
    pieces = range(0, len(item.data), HEX_BYTES_A_LINE)
    return [f"{HEX} {item.data[at:at + HEX_BYTES_A_LINE].hex(' ')}" for at in pieces]


def write(items: list[Item], separator: str = "\n") -> str:
    """The records as text, without a line end behind the last."""
    return separator.join(line for item in items for line in _item_lines(item))

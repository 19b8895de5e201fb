"""The lines that `turns` prints."""

from __future__ import annotations

from typing import NamedTuple

from .counting import as_number
from .errors import ToolError, shown
from .runs import OF_A_RUN


class Column(NamedTuple):
    segment: int
    first: int


class Answer(NamedTuple):
    """A line: its word, its numbers (for `no` the refusal and, if it has one, the run at fault), for `out` the columns."""

    line: str
    word: str
    numbers: tuple[int, ...] = ()
    columns: tuple[Column, ...] = ()


# The words that can answer an opening, and a call.
OPENING = ("open", "no")
CALLED = ("read", "out", "wait", "done", "no")
NUMBERS = {"open": 0, "wait": 0, "done": 0, "no": 1, "read": 2, "out": 2}


def parse_answer(line: str) -> Answer:
    word, *rest = line.split(" ")
    try:
        count = NUMBERS[word] + (word == "no" and _refused_run(rest))
        numbers = tuple(_number(token) for token in rest[:count])
        columns = tuple(_column(token) for token in rest[count:])
    except (KeyError, ValueError):
        raise ToolError(f"turns printed a line that is no answer: {shown(repr(line))}") from None
    if len(numbers) != count or (word == "out") != bool(columns):
        raise ToolError(f"turns printed an answer with too few or too many numbers: {shown(repr(line))}")
    return Answer(line, word, numbers, columns)


def _refused_run(rest: list[str]) -> bool:
    return bool(rest) and as_number(rest[0]) in OF_A_RUN


def _column(token: str) -> Column:
    segment, first = token.split(":")
    return Column(_number(segment), _number(first))


def _number(token: str) -> int:
    number = as_number(token)
    if number is None:
        raise ValueError(token)
    return number

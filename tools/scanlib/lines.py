"""Where the bytes of a job stand in the file that it was read from."""

from __future__ import annotations

from bisect import bisect_right
from itertools import accumulate
from typing import Callable, NamedTuple

from .records import Item

# Where so many bytes from a byte on stand, in words.
Place = Callable[[int, int], str]


class Numbered(NamedTuple):
    """What a line has, or a part of it."""

    line: int
    item: Item


class Lines:
    def __init__(self, numbered: list[Numbered]):
        self.numbers = [line for line, _ in numbered]
        self.ends = list(accumulate(len(item.to_bytes()) for _, item in numbered))

    def in_text(self, byte: int, count: int) -> str:
        """A record stands on one line, but for one that is written as several parts in HEX."""
        first, last = self._line(byte), self._line(byte + count - 1)
        return f"line {first}" if first == last else f"lines {first} to {last}"

    def in_bytes(self, byte: int, count: int) -> str:
        """The lines are those of `decode`, which writes a record a line."""
        return f"byte {byte}, {self.in_text(byte, count)} of what `decode` prints"

    def _line(self, byte: int) -> int:
        return self.numbers[bisect_right(self.ends, byte)]

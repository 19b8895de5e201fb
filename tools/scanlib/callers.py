"""Who makes the calls: the file that holds them, or an order in which the store serves reads."""

from __future__ import annotations

import random
import sys
from typing import Callable, Optional

from .answers import Answer
from .counting import as_number
from .errors import ToolError, shown
from .readout import Readout
from .records import STEP, Item, Record
from .wording import bags_text

# From the reads in flight, each with its segment, the one that is delivered.
Choice = Callable[[dict], int]


class Played:
    """The calls of a file, as they stand."""

    def __init__(self, calls: list[Item]):
        self.calls = iter(calls)

    def first(self) -> Optional[Item]:
        return next(self.calls, None)

    def next(self, answer: Answer, readout: Readout) -> Optional[Item]:
        return self.first()


class Served:
    """Steps until Done; at each Waiting one of the reads in flight is delivered."""

    def __init__(self, choose: Choice):
        self.choose = choose

    def first(self) -> Optional[Item]:
        return STEP

    def next(self, answer: Answer, readout: Readout) -> Optional[Item]:
        if answer.word in ("done", "no"):
            return None
        if answer.word != "wait":
            return STEP
        read = self.choose(readout.in_flight)
        return Record("DL", (read, readout.plan.segments[readout.in_flight[read]]))


def _ask(in_flight: dict) -> int:
    """Asks until the answer is a bag in flight; an empty line is the first of them."""
    reads = {segment: read for read, segment in in_flight.items()}
    bags = sorted(reads)
    while True:
        print(f"      Which has come, {bags_text(bags)}? [{bags[0]}] ", end="", file=sys.stderr, flush=True)
        line = _typed_line()
        if not line:
            print(file=sys.stderr)
            raise ToolError("the input ended before all bags came")
        word = line.strip() or str(bags[0])
        if as_number(word) in reads:
            return reads[as_number(word)]
        print(f"      {shown(word)} is not awaited", file=sys.stderr)


def _typed_line() -> str:
    try:
        return sys.stdin.readline() if sys.stdin else ""
    except OSError as error:
        raise ToolError(f"standard input cannot be read: {error.strerror}") from None


def _at_random(seed: int) -> Choice:
    draw = random.Random(seed)
    return lambda in_flight: draw.choice(sorted(in_flight))


ORDERS: dict[str, Callable[[int], Choice]] = {
    "first": lambda seed: min,
    "last": lambda seed: max,
    "random": _at_random,
    "ask": lambda seed: _ask,
}

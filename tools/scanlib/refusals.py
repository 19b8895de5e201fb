"""What the number of a refusal means, from docs/REFUSALS.md."""

from __future__ import annotations

from functools import lru_cache
from pathlib import Path
from typing import NamedTuple

from .counting import as_number
from .places import REFUSALS


class Refusal(NamedTuple):
    meaning: str
    state: str


@lru_cache(maxsize=None)
def read_table(path: Path) -> dict[int, Refusal]:
    """The rows of the table whose first cell is a number."""
    table = {}
    for line in path.read_text(encoding="utf-8", errors="replace").splitlines():
        cells = [cell.strip() for cell in line.strip().strip("|").split("|")]
        number = as_number(cells[0])
        if len(cells) == 3 and number is not None:
            table[number] = Refusal(cells[1], cells[2])
    return table


def describe(number: int, path: Path = REFUSALS) -> str:
    """A refusal in words. Without the table the number still stands."""
    try:
        refusal = read_table(path).get(number)
    except OSError as error:
        return f"REFUSED {number} (its meaning stands in {path}, which cannot be read: {error.strerror})"
    if refusal is None:
        return f"REFUSED {number} (a number that {path.name} does not have)"
    return f"REFUSED {number}: {refusal.meaning}. State afterwards: {refusal.state}"

"""Rows, bags and bars as text."""

from __future__ import annotations

from typing import Optional

from .counting import counted
from .plan import Missing, Plan, Rows, cut
from .readout import Piece, Readout
from .runs import EARLY, EMPTY, RunFault

BAR_WIDTH = 32
OUT, TO_COME, LEFT_OUT, MISSING = "#", ".", "x", "!"


def rows_text(rows: Rows) -> str:
    start, end = rows
    if end == start:
        return "no rows"
    return f"row {start}" if end == start + 1 else f"rows {start} to {end - 1}"


def place_text(gap: Missing, plan: Plan) -> str:
    """Where a missing bag lies, by rows that the core has."""
    if 0 < gap.row < plan.rows:
        return f"between rows {gap.row - 1} and {gap.row}"
    if gap.row > 0:
        return f"below row {gap.row - 1}"
    return "above row 0" if plan.rows > 0 else "no rows"


def bags_text(segments: list[int]) -> str:
    names = [f"bag {segment}" for segment in segments]
    if len(names) < 2:
        return "".join(names)
    return ", ".join(names[:-1]) + " and " + names[-1]


def columns_text(piece: Piece) -> str:
    count = piece.rows.end - piece.rows.start
    parts = (f"bag {c.segment} {rows_text(Rows(c.first, c.first + count))}" for c in piece.columns)
    return " | ".join(parts)


def run_text(fault: RunFault) -> str:
    """Which run is at fault: its split's record as it is written, the run's two numbers in brackets."""
    words = [fault.record.mark, *map(str, fault.record.fields)]
    start = 4 + 2 * fault.run
    words[start : start + 2] = [f"[{words[start]} {words[start + 1]}]"]
    return f"run {fault.run} of split {fault.split}, both counted from 0: {' '.join(words)}"


def fault_text(fault: RunFault) -> str:
    """What is wrong with the run. Rows of the split are counted from its start, as the runs are."""
    if fault.number == EMPTY:
        return "its length is 0: a run keeps at least one row"
    run = _run_rows(fault, fault.run)
    if fault.number == EARLY:
        before = _run_rows(fault, fault.run - 1)
        early = f"row {run.start} of the split, {counted(before.end - run.start, 'row')} too early"
        return f"it starts at {early}: the run before keeps {rows_text(before)} of it"
    rows = fault.record.fields[1] - fault.record.fields[0]
    return f"it keeps {rows_text(run)} of the split, {counted(run.end - rows, 'row')} too many: the split has {rows}"


def _run_rows(fault: RunFault, run: int) -> Rows:
    start, length = fault.record.fields[3 + 2 * run : 5 + 2 * run]
    return Rows(start, start + length)


def legend(plan: Plan) -> str:
    signs = f"{OUT} out   {TO_COME} to come   {LEFT_OUT} left out   {MISSING} missing bag"
    size = rows_a_sign(plan)
    return signs if size == 1 else f"{signs}   (a sign: up to {size} rows)"


def progress_text(readout: Readout, split: int) -> str:
    """A split's bar and how many of its kept rows are out. The texts of all splits line up."""
    splits = readout.plan.splits
    name = len(str(len(splits) - 1))
    width = max(len(bar(readout, other)) for other in range(len(splits)))
    digits = len(str(max(other.count for other in splits)))
    counts = f"{readout.out[split]:{digits}} of {splits[split].count:{digits}}"
    return f"split {split:{name}} [{bar(readout, split):{width}}] {counts}"


def rows_a_sign(plan: Plan) -> int:
    """How many rows a sign of a bar stands for at most: one scale for all splits."""
    largest = max((split.end - split.start for split in plan.splits), default=0)
    return max(1, -(-largest // BAR_WIDTH))


def bar(readout: Readout, number: int) -> str:
    """The split from its start to its end. What is kept or left out has a sign of its own, however short it is."""
    plan, split = readout.plan, readout.plan.splits[number]
    size = rows_a_sign(plan)
    gaps = plan.missing_in(number)
    next_row = readout.next_row(number)
    parts = [(Rows(gap.row, gap.row), MISSING) for gap in gaps]
    parts += [(rows, LEFT_OUT * _signs(rows, size)) for rows in cut(split.gaps(), gaps)]
    parts += [(rows, _kept_signs(rows, size, next_row)) for rows in cut(list(split.kept), gaps)]
    return "".join(signs for _, signs in sorted(parts))


def _signs(rows: Rows, size: int) -> int:
    return -(-(rows.end - rows.start) // size)


def _kept_signs(rows: Rows, size: int, next_row: Optional[int]) -> str:
    """A sign is `#` when all its rows are out. Kept rows come out by depth: those above the next one are out."""
    signs = _signs(rows, size)
    if next_row is None or rows.end <= next_row:
        return OUT * signs
    out = max(0, next_row - rows.start) // size
    return OUT * out + TO_COME * (signs - out)

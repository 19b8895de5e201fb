"""What stands before the turns and behind them: the core, and the depth readout."""

from __future__ import annotations

from textwrap import wrap
from typing import Tuple

from .counting import counted
from .plan import Missing, Plan, Rows, Span, Split, cut
from .readout import Readout
from .wording import columns_text, legend, place_text, rows_text

LINE = 80
# A space at which no line is broken.
TIED = "\u00a0"
# Rows, or none for a missing bag; where that is, in words; and what is told of it.
Entry = Tuple[Rows, str, str]


def core_lines(plan: Plan) -> list[str]:
    lines = [f"The core: {rows_text(Rows(0, plan.rows))}"]
    for number, spans in enumerate(plan.columns):
        lines += _wrapped(f"  column {number}: ", [_span_text(span) for span in spans])
    for number, split in enumerate(plan.splits):
        lines += _wrapped(f"  split {number}: ", _split_texts(split))
    return lines + [f"  {legend(plan)}"]


def _wrapped(title: str, texts: list[str]) -> list[str]:
    """The texts behind a title, over several lines where need be; none of them is broken."""
    tied = ", ".join(text.replace(" ", TIED) for text in texts)
    lines = wrap(tied, LINE, initial_indent=title, subsequent_indent=" " * len(title))
    return [line.replace(TIED, " ") for line in lines]


def _span_text(span: Span) -> str:
    if span.start == span.end:
        return f"bag {span.segment} MISSING (stored with no rows)"
    return f"bag {span.segment} {rows_text(Rows(span.start, span.end))}"


def _split_texts(split: Split) -> list[str]:
    gaps = [rows_text(gap) for gap in split.gaps()]
    left_out = [f"left out: {gaps[0]}"] + gaps[1:] if gaps else []
    return [rows_text(Rows(split.start, split.end)), f"{split.count} kept"] + left_out


def readout_lines(readout: Readout) -> list[str]:
    """Every split by depth: what came out, what is still to come, and the gaps; then what no split has."""
    plan = readout.plan
    parts = [(_split_title(readout, number), _split_entries(readout, number)) for number in range(len(plan.splits))]
    parts.append(("in no split:", _outside_entries(plan)))
    width = max((len(place) for _, entries in parts for _, place, _ in entries), default=0)
    lines = ["The depth readout:"]
    for title, entries in parts if parts[-1][1] else parts[:-1]:
        lines.append(f"  {title}")
        lines += [f"    {place:{width}}  {text}" for _, place, text in sorted(entries, key=lambda entry: entry[0])]
    return lines


def _split_title(readout: Readout, number: int) -> str:
    return f"split {number}: {readout.out[number]} of {counted(readout.plan.splits[number].count, 'row')}"


def _split_entries(readout: Readout, number: int) -> list[Entry]:
    split = readout.plan.splits[number]
    gaps = readout.plan.missing_in(number)
    to_come = split.pieces(readout.out[number], split.count)
    entries = [_rows_entry(piece.rows, columns_text(piece)) for piece in readout.pieces if piece.split == number]
    entries += [_rows_entry(rows, "TO COME") for rows in cut(to_come, gaps)]
    entries += [_rows_entry(rows, "GAP, left out") for rows in cut(split.gaps(), gaps)]
    return entries + [_missing_entry(gap, readout.plan) for gap in gaps]


def _outside_entries(plan: Plan) -> list[Entry]:
    gaps = plan.missing_outside()
    entries = [_rows_entry(rows, "GAP, not read") for rows in cut(plan.outside(), gaps)]
    return entries + [_missing_entry(gap, plan) for gap in gaps]


def _rows_entry(rows: Rows, text: str) -> Entry:
    return rows, rows_text(rows), text


def _missing_entry(gap: Missing, plan: Plan) -> Entry:
    text = f"GAP, bag {gap.segment} MISSING from column {gap.column} (stored with no rows)"
    return Rows(gap.row, gap.row), place_text(gap, plan), text

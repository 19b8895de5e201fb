"""The core as a job describes it: which bag stands at which rows of each column, and the splits."""

from __future__ import annotations

from typing import NamedTuple

from .errors import ToolError
from .records import Item, Record
from .runs import first_fault

NO_JOB = "turns opened a job that is none; its bytes are shown by `decode`"


class Span(NamedTuple):
    """A segment's place in a column: rows `start` up to `end` of the core. A missing bag has none."""

    start: int
    end: int
    segment: int

    def moved(self, down: int) -> Span:
        return Span(self.start + down, self.end + down, self.segment)


class Rows(NamedTuple):
    """Rows `start` up to `end`, which is not among them."""

    start: int
    end: int


class Missing(NamedTuple):
    """A place that a bag is missing from: in a column, above a row of the core or below all."""

    row: int
    column: int
    segment: int


def cut(parts: list[Rows], gaps: list[Missing]) -> list[Rows]:
    """The same rows, with an end wherever a bag is missing among them."""
    found = []
    for start, end in parts:
        ends = sorted({gap.row for gap in gaps if start < gap.row < end}) + [end]
        found += [Rows(*rows) for rows in zip([start] + ends, ends)]
    return found


class Split(NamedTuple):
    """A part of the core, and the rows of it that are kept."""

    start: int
    end: int
    kept: tuple[Rows, ...]

    @property
    def count(self) -> int:
        return sum(run.end - run.start for run in self.kept)

    def gaps(self) -> list[Rows]:
        """The rows that are left out."""
        starts = [self.start] + [run.end for run in self.kept]
        ends = [run.start for run in self.kept] + [self.end]
        return [Rows(start, end) for start, end in zip(starts, ends) if start < end]

    def pieces(self, first: int, count: int) -> list[Rows]:
        """Where `count` kept rows stand, from the kept row number `first` on."""
        found = []
        for run in self.kept:
            start = run.start + first
            end = min(run.end, start + count)
            if start < run.end and start < end:
                found.append(Rows(start, end))
                count -= end - start
            first = max(0, first - (run.end - run.start))
        return found


class Plan(NamedTuple):
    slots: int
    columns: list[list[Span]]
    splits: list[Split]
    segments: dict[int, int]

    @property
    def rows(self) -> int:
        return self.columns[0][-1].end

    def span_at(self, column: int, row: int) -> Span:
        return next(span for span in self.columns[column] if span.start <= row < span.end)

    def missing(self) -> list[Missing]:
        """Every place that a bag is missing from, once: by depth, at one depth by column, and in a column downwards."""
        bags = [(number, span) for number, spans in enumerate(self.columns) for span in spans]
        found = [Missing(span.start, number, span.segment) for number, span in bags if span.start == span.end]
        return sorted(dict.fromkeys(found), key=lambda gap: (gap.row, gap.column))

    def told_by(self, gap: Missing) -> list[int]:
        """The splits that tell of a missing bag: all around it, or else one that it borders on, best one with rows."""
        splits = [(number, split) for number, split in enumerate(self.splits) if split.start <= gap.row <= split.end]
        within = [number for number, split in splits if split.start < gap.row < split.end]
        splits.sort(key=lambda numbered: numbered[1].start == numbered[1].end)
        return within or [number for number, _ in splits[:1]]

    def missing_in(self, split: int) -> list[Missing]:
        return [gap for gap in self.missing() if split in self.told_by(gap)]

    def missing_outside(self) -> list[Missing]:
        return [gap for gap in self.missing() if not self.told_by(gap)]

    def outside(self) -> list[Rows]:
        """The rows that no split has."""
        found, at = [], 0
        for start, end in sorted((split.start, split.end) for split in self.splits if split.start < split.end):
            found.append(Rows(at, start))
            at = max(at, end)
        return [rows for rows in found + [Rows(at, self.rows)] if rows.start < rows.end]


def _concat(children: list[list[list[Span]]]) -> list[list[Span]]:
    columns: list[list[Span]] = [[] for _ in children[0]]
    for child in children:
        down = columns[0][-1].end if columns[0] else 0
        for column, spans in zip(columns, child):
            column.extend(span.moved(down) for span in spans)
    return columns


def _pack(children: list[list[list[Span]]]) -> list[list[Span]]:
    return [column for child in children for column in child]


def _split(fields: tuple[int, ...]) -> Split:
    """Runs that meet are joined: where two passes of the scanner meet, nothing is left out."""
    start, end = fields[:2]
    kept: list[Rows] = []
    for at, length in zip(fields[3::2], fields[4::2]):
        run = Rows(start + at, start + at + length)
        if kept and kept[-1].end == run.start:
            run = Rows(kept.pop().start, run.end)
        kept.append(run)
    return Split(start, end, tuple(kept))


def _join(mark: str, children: list[list[list[Span]]]) -> list[list[Span]]:
    like = {len(child) if mark == "CC" else child[0][-1].end for child in children}
    if len(like) != 1:
        raise ToolError(NO_JOB)
    return _concat(children) if mark == "CC" else _pack(children)


def _lies_within(split: Split, rows: int) -> bool:
    return split.start <= split.end <= rows


def make_plan(job: list[Item]) -> Plan:
    """The plan of a job that `turns` has opened: what a plan cannot be made of should have been refused."""
    slots = 0
    nodes: list[list[list[Span]]] = []
    splits: list[Split] = []
    segments: dict[int, int] = {}
    for mark, fields in (item for item in job if isinstance(item, Record)):
        if mark == "SC":
            slots = fields[0]
        elif mark == "SG":
            segments[fields[0]] = fields[1]
            nodes.append([[Span(0, fields[1], fields[0])]])
        elif mark == "SP":
            splits.append(_split(fields))
        else:
            first = len(nodes) - fields[0]
            nodes[max(first, 0) :] = [_join(mark, nodes[first:] if first >= 0 else [])]
    if len(nodes) != 1 or first_fault(job) or not all(_lies_within(split, nodes[0][0][-1].end) for split in splits):
        raise ToolError(NO_JOB)
    return Plan(slots, nodes[0], splits, segments)

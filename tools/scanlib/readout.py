"""What is known of a scan after each answer: the rows that are out, and the bags that are awaited."""

from __future__ import annotations

from typing import NamedTuple, Optional

from .answers import Answer, Column
from .errors import ToolError
from .plan import Plan, Rows
from .records import Record


class Piece(NamedTuple):
    """Rows of the core that came out, with a segment and its first row for each column."""

    split: int
    rows: Rows
    columns: tuple[Column, ...]


class Readout:
    def __init__(self, plan: Plan):
        self.plan = plan
        self.out = [0] * len(plan.splits)
        self.pieces: list[Piece] = []
        self.in_flight: dict[int, int] = {}
        self.segment_of: dict[int, int] = {}
        self.arrived: set[int] = set()

    def note(self, call: Record, answer: Answer) -> list[Piece]:
        """Takes in a call that was not refused, and its turn; the pieces that the turn put out."""
        if call.mark == "DL":
            self._arrived(call.fields[0])
        if answer.word == "read":
            self._asked_for(answer)
        elif answer.word == "out":
            return self._put_out(answer)
        elif answer.word == "wait" and not self.in_flight:
            raise ToolError("turns waits, but no read is in flight")
        elif answer.word == "done" and not all(map(self.is_complete, range(len(self.out)))):
            raise ToolError("turns says done, but not all kept rows are out")
        return []

    def _asked_for(self, answer: Answer) -> None:
        read, segment = answer.numbers
        if segment not in self.plan.segments:
            raise ToolError(f"turns asks for a segment that the job does not have: {answer.line}")
        self.in_flight[read] = self.segment_of[read] = segment

    def _arrived(self, read: int) -> None:
        if read not in self.in_flight:
            raise ToolError(f"turns accepts read {read}, which is not in flight")
        self.arrived.add(self.in_flight.pop(read))

    def _put_out(self, answer: Answer) -> list[Piece]:
        split, count = answer.numbers
        if count == 0 or split >= len(self.out) or self.out[split] + count > self.plan.splits[split].count:
            raise ToolError(f"turns put out no rows, or rows that the job does not keep: {answer.line}")
        done = 0
        pieces = []
        for rows in self.plan.splits[split].pieces(self.out[split], count):
            columns = tuple(Column(c.segment, c.first + done) for c in answer.columns)
            pieces.append(Piece(split, rows, columns))
            done += rows.end - rows.start
        self.out[split] += count
        self.pieces += pieces
        return pieces

    def awaited(self) -> list[int]:
        """The bags in flight, by number."""
        return sorted(self.in_flight.values())

    def is_complete(self, split: int) -> bool:
        return self.out[split] >= self.plan.splits[split].count

    def standing(self) -> list[int]:
        """The splits that are being read: as many as there are slots, of those not complete."""
        rest = [split for split in range(len(self.out)) if not self.is_complete(split)]
        return rest[: self.plan.slots]

    def next_row(self, split: int) -> Optional[int]:
        """The row of the core that comes out next."""
        pieces = self.plan.splits[split].pieces(self.out[split], 1)
        return pieces[0].start if pieces else None

    def needed(self, split: int) -> list[int]:
        """The bags that the split's next row is in and that have not come."""
        row = self.next_row(split)
        if row is None:
            return []
        columns = range(len(self.plan.columns))
        bags = {self.plan.span_at(column, row).segment for column in columns}
        return sorted(bags - self.arrived)

    def wrong_depth(self, piece: Piece) -> bool:
        """Whether a piece is not what the job has at its rows."""
        start, end = piece.rows
        if len(piece.columns) != len(self.plan.columns):
            return True
        for number, column in enumerate(piece.columns):
            span = self.plan.span_at(number, start)
            if (span.segment, start - span.start) != column or span.end < end:
                return True
        return False

"""How a session is shown: turn by turn, as plain lines, or only its end."""

from __future__ import annotations

from typing import Callable, Optional

from .answers import Answer
from .counting import counted
from .notation import write
from .readout import Piece, Readout
from .records import Item
from .report import core_lines, readout_lines
from .wording import bags_text, columns_text, progress_text, rows_text

Say = Callable[[str], None]


class Transcript:
    """The lines of `turns` and nothing else; what a refusal means goes to the side."""

    def __init__(self, say: Say, aside: Say):
        self.say = say
        self.aside = aside

    def opened(self, answer: Answer, readout: Readout) -> None:
        self.say(answer.line)

    def refused(self, answer: Answer, call: Optional[Item], lines: list[str]) -> None:
        self.say(answer.line)
        for line in lines:
            self.aside(line)

    def turn(self, call: Item, answer: Answer, pieces: list[Piece], readout: Readout) -> None:
        self.say(answer.line)

    def ended(self, readout: Readout) -> None:
        pass


class Quiet:
    """The depth readout at the end."""

    def __init__(self, say: Say):
        self.say = say

    def opened(self, answer: Answer, readout: Readout) -> None:
        pass

    def refused(self, answer: Answer, call: Optional[Item], lines: list[str]) -> None:
        for line in lines:
            self.say(line)

    def turn(self, call: Item, answer: Answer, pieces: list[Piece], readout: Readout) -> None:
        pass

    def ended(self, readout: Readout) -> None:
        for line in readout_lines(readout):
            self.say(line)


class TurnByTurn(Quiet):
    """A line for each turn and each bag that comes; at a wait, where each split stands."""

    def __init__(self, say: Say):
        super().__init__(say)
        self.turns = 0

    def opened(self, answer: Answer, readout: Readout) -> None:
        for line in core_lines(readout.plan) + [""]:
            self.say(line)

    def refused(self, answer: Answer, call: Optional[Item], lines: list[str]) -> None:
        if call is None:
            self.say("The job is not opened.")
            super().refused(answer, call, lines)
        else:
            for line in [write([call], ", "), *lines]:
                self.say(f"      {line}")

    def turn(self, call: Item, answer: Answer, pieces: list[Piece], readout: Readout) -> None:
        if call.mark == "DL":
            self.say(f"      {self._arrival(call, readout)}")
        self.turns += 1
        first, *more = self._lines(answer, pieces, readout)
        self.say(f"{self.turns:4}  {first}")
        for line in more:
            self.say(f"      {line}")

    def ended(self, readout: Readout) -> None:
        self.say("")
        super().ended(readout)

    def _arrival(self, call: Item, readout: Readout) -> str:
        read, rows = call.fields
        return f"> bag {readout.segment_of[read]} comes in ({counted(rows, 'row')})"

    def _lines(self, answer: Answer, pieces: list[Piece], readout: Readout) -> list[str]:
        if answer.word == "read":
            return [f"asks for bag {answer.numbers[1]}"]
        if answer.word == "wait":
            standing = (_standing_text(readout, split) for split in readout.standing())
            return [f"WAITING for {bags_text(readout.awaited())}", *standing]
        if answer.word == "out":
            return [_piece_text(piece, readout) for piece in pieces]
        return ["DONE"]


def _standing_text(readout: Readout, split: int) -> str:
    needed = readout.needed(split)
    until = f" until {bags_text(needed)} {'comes' if len(needed) == 1 else 'come'} in" if needed else ""
    return f"{progress_text(readout, split)}, stands at row {readout.next_row(split)}{until}"


def _piece_text(piece: Piece, readout: Readout) -> str:
    return f"{progress_text(readout, piece.split)}, {rows_text(piece.rows)}: {columns_text(piece)}"

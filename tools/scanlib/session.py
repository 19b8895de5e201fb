"""One session: the job, then calls, each answered before the next is made."""

from __future__ import annotations

from typing import Optional

from .answers import CALLED, OPENING, Answer
from .errors import ToolError
from .lines import Place
from .plan import make_plan
from .program import Program
from .readout import Readout
from .records import Item, Raw, is_call, to_bytes
from .refusals import describe
from .runs import RUN_BYTES, RunFault, first_fault
from .wording import fault_text, run_text


class Session:
    def __init__(self, program: Program, caller, view):
        self.program = program
        self.caller = caller
        self.view = view
        self.refusals = 0

    def run(self, job: list[Item], place: Place) -> int:
        """How many refusals came. `place` says where bytes of the job stand in its file."""
        call = self._send_job(job)
        answer = self._fitting_answer(OPENING)
        if answer.word == "no":
            self._refused(answer, None, _run_lines(answer, job, place))
            return self.refusals
        readout = Readout(make_plan(job))
        self.view.opened(answer, readout)
        while call is not None:
            answer = self._answer(call, readout)
            call = self.caller.next(answer, readout) if is_call(call) else None
            self._send_call(call)
        self.view.ended(readout)
        return self.refusals

    def _send_job(self, job: list[Item]) -> Optional[Item]:
        """The job with the first call, which tells `turns` that the job has ended.

        Behind bytes that are no record everything is the job's, so there the input ends instead.
        """
        damaged = any(isinstance(item, Raw) for item in job)
        call = None if damaged else self.caller.first()
        self.program.send(to_bytes(job))
        self._send_call(call)
        return call

    def _send_call(self, call: Optional[Item]) -> None:
        """Nothing is sent behind what is no call: there the session ends."""
        if call is not None:
            self.program.send(call.to_bytes())
        if call is None or not is_call(call):
            self.program.end_input()

    def _answer(self, call: Item, readout: Readout) -> Answer:
        answer = self._fitting_answer(CALLED if is_call(call) else ("no",))
        if answer.word == "no":
            self._refused(answer, call)
            return answer
        pieces = readout.note(call, answer)
        self.view.turn(call, answer, pieces, readout)
        if any(readout.wrong_depth(piece) for piece in pieces):
            raise ToolError(f"WRONG DEPTH: the job has other rows there: {answer.line}")
        return answer

    def _fitting_answer(self, words: tuple[str, ...]) -> Answer:
        answer = self.program.answer()
        if answer.word not in words:
            raise ToolError(f"turns printed {answer.line!r} where {', '.join(words)} could follow")
        return answer

    def _refused(self, answer: Answer, call: Optional[Item], run_lines: tuple[str, ...] = ()) -> None:
        self.refusals += 1
        self.view.refused(answer, call, [describe(answer.numbers[0]), *run_lines])


def _run_lines(answer: Answer, job: list[Item], place: Place) -> tuple[str, ...]:
    """The run at fault, where it stands and what is wrong with it; nothing for another refusal."""
    if len(answer.numbers) == 1:
        return ()
    fault = _told_fault(answer, first_fault(job))
    return f"  {place(fault.byte, RUN_BYTES)}: {run_text(fault)}", f"  {fault_text(fault)}"


def _told_fault(answer: Answer, fault: Optional[RunFault]) -> RunFault:
    """The run that `turns` told of is held against the job, as the rows are that come out."""
    if fault is None or answer.numbers != (fault.number, fault.run):
        found = f"the first run at fault is, by {fault.number}, {run_text(fault)}" if fault else "no run is at fault"
        raise ToolError(f"turns printed {answer.line!r}, but {found}")
    return fault

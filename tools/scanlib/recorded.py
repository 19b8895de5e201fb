"""Recorded lists of sessions: for each the length of its input, the input, the length of the answers, the answers."""

from __future__ import annotations

from typing import Iterator, NamedTuple, Optional

from .counting import as_number
from .errors import ToolError, shown
from .notation import write
from .records import Item, from_bytes, job_and_calls, words
from .refusals import describe
from .runs import first_fault
from .wording import run_text


class Recorded(NamedTuple):
    data: bytes
    answers: str


def read_list(data: bytes) -> Iterator[Recorded]:
    at = 0
    while at < len(data):
        given, behind = _part(data, at)
        answers, at = _part(data, behind)
        yield Recorded(given, answers.decode("ascii", "backslashreplace"))


def _part(data: bytes, at: int) -> tuple[bytes, int]:
    length = words(data, at, 1)
    start = at + 4
    if length is None or len(data) - start < length[0]:
        raise ToolError(f"the list is cut short: at byte {at} a length and as many bytes were expected")
    return data[start : start + length[0]], start + length[0]


def session_lines(session: Recorded) -> list[str]:
    """The job and its answer, then each call beside its answer."""
    job, calls = job_and_calls(from_bytes(session.data))
    answers = session.answers.splitlines()
    asked = [write([call], ", ") for call in calls]
    width = max(map(len, asked), default=0)
    lines = [write(job, ", ") or "(an empty job)", f"  {_answer_text(answers[:1])}", *_run_line(answers[:1], job)]
    for place, call in enumerate(asked, start=1):
        lines.append(f"  {call:{width}}  {_answer_text(answers[place:place + 1])}")
    return lines + [f"  (no call)  {shown(answer)}" for answer in answers[len(asked) + 1 :]]


def _answer_text(answer: list[str]) -> str:
    """An answer with the meaning of a refusal; a session that has ended gives none."""
    if not answer:
        return "(no answer)"
    word, _, numbers = answer[0].partition(" ")
    refusal = as_number(numbers.partition(" ")[0]) if word == "no" else None
    return shown(answer[0]) if refusal is None else f"{shown(answer[0])}  ({describe(refusal)})"


def _run_line(answer: list[str], job: list[Item]) -> list[str]:
    """The run at fault, where the answer is the one that the job's first fault gives."""
    fault = first_fault(job)
    told = fault is not None and answer == [f"no {fault.number} {fault.run}"]
    return [f"  {run_text(fault)}"] if told else []


def show(data: bytes, only: Optional[int]) -> Iterator[str]:
    found = False
    for number, session in enumerate(read_list(data)):
        if only in (None, number):
            found = True
            yield f"session {number}: " + "\n".join(session_lines(session))
    if only is not None and not found:
        raise ToolError(f"the list has no session {only}")

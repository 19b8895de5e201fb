"""The first run at fault in a job: which fault, which split's, which run, and where it stands."""

from __future__ import annotations

from typing import NamedTuple, Optional

from .records import Item, Record

# The refusals that a run's index comes with.
EMPTY, EARLY, PAST = 17, 18, 19
OF_A_RUN = (EMPTY, EARLY, PAST)
# Bytes before the first run of a split, and those of a run.
BEFORE_RUNS, RUN_BYTES = 14, 8


class RunFault(NamedTuple):
    """The refusal, the split and the run counted from 0, the split's record, and the run's first byte in the job."""

    number: int
    split: int
    run: int
    record: Record
    byte: int


def first_fault(job: list[Item]) -> Optional[RunFault]:
    """Split by split and run by run, as opening asks them. A split's own start and end are not asked."""
    split = byte = 0
    for item in job:
        if isinstance(item, Record) and item.mark == "SP":
            found = _first_in(item.fields)
            if found is not None:
                number, run = found
                return RunFault(number, split, run, item, byte + BEFORE_RUNS + RUN_BYTES * run)
            split += 1
        byte += len(item.to_bytes())
    return None


def _first_in(fields: tuple[int, ...]) -> Optional[tuple[int, int]]:
    """The number and the run; of one run 17 before 18 before 19."""
    rows = fields[1] - fields[0]
    before = 0
    for run, (start, length) in enumerate(zip(fields[3::2], fields[4::2])):
        end = start + length
        faults = {EMPTY: length == 0, EARLY: start < before, PAST: end > rows}
        number = next((number for number, holds in faults.items() if holds), None)
        if number is not None:
            return number, run
        before = end
    return None

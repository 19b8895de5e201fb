"""Records of a job and calls as bytes: a mark of two letters, then 32-bit fields, low byte first."""

from __future__ import annotations

import struct
from typing import NamedTuple, Optional, Union

FIELDS = {
    "SC": ("slots",),
    "SG": ("segment", "rows"),
    "CC": ("children",),
    "PK": ("fields",),
    "SP": ("start", "end", "runs"),
    "ST": (),
    "DL": ("read", "rows"),
}
CALLS = ("ST", "DL")


class Record(NamedTuple):
    """One record or call. The fields of `SP` go on with the start and length of each run."""

    mark: str
    fields: tuple[int, ...] = ()

    def to_bytes(self) -> bytes:
        return self.mark.encode("ascii") + struct.pack(f"<{len(self.fields)}I", *self.fields)


class Raw(NamedTuple):
    """Bytes that are no whole record."""

    data: bytes

    def to_bytes(self) -> bytes:
        return self.data


Item = Union[Record, Raw]
STEP = Record("ST")


def is_call(item: Item) -> bool:
    return isinstance(item, Record) and item.mark in CALLS


def to_bytes(items: list[Item]) -> bytes:
    return b"".join(item.to_bytes() for item in items)


def words(data: bytes, at: int, count: int) -> Optional[tuple[int, ...]]:
    """`count` fields from a place on, or None where the bytes end before."""
    if len(data) - at < 4 * count:
        return None
    return struct.unpack_from(f"<{count}I", data, at)


def next_record(data: bytes, at: int) -> Optional[Record]:
    """The record at a place, or None where no whole one stands there."""
    mark = data[at : at + 2].decode("latin-1")
    if mark not in FIELDS:
        return None
    fields = words(data, at + 2, len(FIELDS[mark]))
    if mark == "SP" and fields is not None:
        fields = words(data, at + 2, 3 + 2 * fields[2])
    return None if fields is None else Record(mark, fields)


def from_bytes(data: bytes) -> list[Item]:
    """All bytes as records; from the first place where none stands, the rest is raw."""
    items: list[Item] = []
    at = 0
    while at < len(data):
        record = next_record(data, at)
        if record is None:
            return items + [Raw(data[at:])]
        items.append(record)
        at += 2 + 4 * len(record.fields)
    return items


def job_and_calls(items: list[Item]) -> tuple[list[Item], list[Item]]:
    """The job ends at the first call."""
    for place, item in enumerate(items):
        if is_call(item):
            return items[:place], items[place:]
    return items, []

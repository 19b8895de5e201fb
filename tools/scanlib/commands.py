"""The commands: each takes its options and answers with an exit status."""

from __future__ import annotations

import argparse
import sys

from . import recorded
from .callers import ORDERS, Played, Served
from .errors import ToolError
from .files import read_bytes, read_source, write_bytes
from .notation import write
from .program import Program
from .records import from_bytes, job_and_calls, to_bytes
from .session import Session
from .views import Quiet, Transcript, TurnByTurn


def encode(args: argparse.Namespace) -> int:
    write_bytes(args.output, to_bytes(read_source(args.file, is_bytes=False).items))
    return 0


def decode(args: argparse.Namespace) -> int:
    text = write(from_bytes(read_bytes(args.file)), ", " if args.commas else "\n")
    if text:
        print(text)
    return 0


def show(args: argparse.Namespace) -> int:
    for text in recorded.show(read_bytes(args.file), args.only):
        print(text)
    return 0


def run(args: argparse.Namespace) -> int:
    if args.order == "ask" and args.file == "-":
        raise ToolError("--order ask reads your answers from standard input: name the job's file")
    source = read_source(args.file, args.bytes)
    job, calls = job_and_calls(source.items)
    played = bool(calls) and args.order is None
    caller = Played(calls) if played else Served(ORDERS[args.order or "first"](args.seed))
    with Program(args.turns, args.patience) as program:
        refusals = Session(program, caller, _view(args)).run(job, source.place)
    return 1 if refusals else 0


def _view(args: argparse.Namespace):
    if args.transcript:
        return Transcript(_say, lambda text: print(text, file=sys.stderr))
    return Quiet(_say) if args.quiet else TurnByTurn(_say)


def _say(text: str) -> None:
    print(text, flush=True)

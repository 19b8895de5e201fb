"""The command line."""

from __future__ import annotations

import argparse
import contextlib
import io
import os
import sys
from pathlib import Path
from typing import Optional

from . import commands, help
from .callers import ORDERS
from .counting import LARGEST, as_number
from .errors import ToolError, shown
from .places import TURNS

AS_WRITTEN = argparse.RawDescriptionHelpFormatter
A_DAY = 86400


def _seconds(text: str) -> float:
    try:
        seconds = float(text)
    except ValueError:
        seconds = 0
    if not 0 < seconds <= A_DAY:
        raise argparse.ArgumentTypeError(f"expected seconds, more than 0 and at most {A_DAY}; found {shown(text)}")
    return seconds


def _whole(text: str) -> int:
    number = as_number(text)
    if number is None:
        raise argparse.ArgumentTypeError(f"expected a number from 0 to {LARGEST}; found {shown(text)}")
    return number


def _add_run(parsers) -> None:
    command = parsers.add_parser(
        "run", help="run a job and show its turns", description=help.RUN, formatter_class=AS_WRITTEN
    )
    command.add_argument("file", help="the job as text, with or without calls; - is standard input")
    command.add_argument("--bytes", action="store_true", help="the file has the bytes, not the text")
    command.add_argument("--order", choices=ORDERS, help="the order in which bags come in")
    command.add_argument("--seed", type=_whole, default=0, help="for --order random (default: 0)")
    view = command.add_mutually_exclusive_group()
    view.add_argument("--quiet", action="store_true", help="only the depth readout at the end")
    view.add_argument("--transcript", action="store_true", help="only the lines that turns prints")
    command.add_argument("--turns", type=Path, default=TURNS, help="the program (default: target/bin/turns)")
    command.add_argument("--patience", type=_seconds, default=10, help="seconds to wait for an answer (default: 10)")
    command.set_defaults(action=commands.run)


def _add_others(parsers) -> None:
    command = parsers.add_parser("encode", help="text to bytes")
    command.add_argument("file", nargs="?", default="-", help="the text (default: standard input)")
    command.add_argument("-o", "--output", default="-", help="where the bytes go (default: standard output)")
    command.set_defaults(action=commands.encode)
    command = parsers.add_parser("decode", help="bytes to text")
    command.add_argument("file", nargs="?", default="-", help="the bytes (default: standard input)")
    command.add_argument("--commas", action="store_true", help="all on one line")
    command.set_defaults(action=commands.decode)
    command = parsers.add_parser("show", help="a recorded list of sessions as text")
    command.add_argument("file", help="each session: 32-bit length, input, 32-bit length, answers")
    command.add_argument("--only", type=_whole, metavar="N", help="only session N, counted from 0")
    command.set_defaults(action=commands.show)


def _parser() -> argparse.ArgumentParser:
    parser = argparse.ArgumentParser(
        prog="scan.py", description=help.DESCRIPTION, epilog=help.EPILOG, formatter_class=AS_WRITTEN
    )
    parsers = parser.add_subparsers(title="commands", required=True)
    _add_run(parsers)
    _add_others(parsers)
    return parser


def main(arguments: Optional[list[str]] = None) -> int:
    """The exit status. Whatever goes wrong is told in words, and is 2."""
    sys.stderr = sys.stderr or open(os.devnull, "w", encoding="utf-8")
    if sys.stdout is None:
        return _complain("standard output is closed")
    for stream in (sys.stdin, sys.stdout):
        if isinstance(stream, io.TextIOWrapper):
            stream.reconfigure(errors="backslashreplace")
    try:
        status = _status(arguments)
        sys.stdout.flush()
        return status
    except BrokenPipeError:
        return _give_up_output()
    except OSError as error:
        _give_up_output()
        return _complain(f"standard output takes no more: {error.strerror}")


def _status(arguments: Optional[list[str]]) -> int:
    try:
        args = _parser().parse_args(arguments)
        return args.action(args)
    except SystemExit as ended:
        return ended.code
    except ToolError as error:
        return _complain(str(error))
    except KeyboardInterrupt:
        return _complain("stopped")


def _complain(text: str) -> int:
    with contextlib.suppress(OSError):
        print(f"scan.py: {text}", file=sys.stderr, flush=True)
    return 2


def _give_up_output() -> int:
    """What is still held back goes nowhere, so that Python's end does not stumble over it again."""
    with open(os.devnull, "wb") as nowhere:
        os.dup2(nowhere.fileno(), sys.stdout.fileno())
    return 2

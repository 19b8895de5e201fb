"""A conversation with the program `turns` through pipes."""

from __future__ import annotations

import os
import queue
import select
import subprocess
import threading
from pathlib import Path
from typing import Optional

from .answers import Answer, parse_answer
from .errors import ToolError


class Program:
    """The program, started; leaving the `with` block ends it."""

    def __init__(self, path: Path, patience: float):
        self.path = path
        self.patience = patience
        self.lines: queue.Queue[Optional[bytes]] = queue.Queue()

    def __enter__(self) -> Program:
        pipe = subprocess.PIPE
        try:
            self.process = subprocess.Popen([os.path.abspath(self.path)], stdin=pipe, stdout=pipe, bufsize=0)
        except (OSError, ValueError) as error:
            raise ToolError(self._not_started(getattr(error, "strerror", error))) from None
        self.reader = threading.Thread(target=self._read_lines, daemon=True)
        self.reader.start()
        return self

    def _not_started(self, cause: object) -> str:
        if os.path.exists(self.path):
            return f"{self.path} cannot be started: {cause}"
        return (
            f"the program turns is not at {self.path}\n"
            "  build it with `tools/build turns` in the repository's root, or name another with --turns"
        )

    def __exit__(self, *_: object) -> None:
        """A program may have started others that still hold its output: they are not waited for."""
        self.end_input()
        self.process.kill()
        self.process.wait()
        self.reader.join(timeout=1)
        if not self.reader.is_alive():
            self.process.stdout.close()

    def _read_lines(self) -> None:
        for line in self.process.stdout:
            self.lines.put(line)
        self.lines.put(None)

    def send(self, data: bytes) -> None:
        """A program that has ended no longer reads; what it said last is still to be read."""
        pipe = self.process.stdin
        try:
            while data:
                if not select.select([], [pipe], [], self.patience)[1]:
                    raise ToolError(f"turns read nothing within {self.patience:g} seconds")
                data = data[pipe.write(data[: select.PIPE_BUF]) :]
        except BrokenPipeError:
            pass

    def end_input(self) -> None:
        try:
            self.process.stdin.close()
        except BrokenPipeError:
            pass

    def answer(self) -> Answer:
        try:
            line = self.lines.get(timeout=self.patience)
        except queue.Empty:
            raise ToolError(f"turns gave no answer within {self.patience:g} seconds") from None
        if line is None:
            raise ToolError("turns ended without an answer")
        return parse_answer(line.decode("ascii", "replace").rstrip("\n"))

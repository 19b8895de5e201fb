"""What the tests share."""

import contextlib
import io
import os
import sys
import tempfile
import unittest
from pathlib import Path

from scanlib.options import main
from scanlib.places import ROOT, TURNS

EXAMPLES = Path(__file__).resolve().parents[1] / "examples"
PROGRAM = Path(os.environ.get("TURNS", TURNS))
needs_turns = unittest.skipUnless(PROGRAM.is_file(), f"{PROGRAM} is not built: `tools/build turns` in {ROOT}")


class Ran:
    """A command with its exit status and what it printed."""

    def __init__(self, *arguments, typed=""):
        typed = typed if isinstance(typed, bytes) else typed.encode()
        out, err = _stream(b""), _stream(b"")
        stdin, sys.stdin = sys.stdin, _stream(typed)
        try:
            with contextlib.redirect_stdout(out), contextlib.redirect_stderr(err):
                self.status = main([str(argument) for argument in arguments])
        finally:
            sys.stdin = stdin
        self.data = out.buffer.getvalue()
        self.out, self.err = (stream.buffer.getvalue().decode("latin-1") for stream in (out, err))


def _stream(data):
    """A stream like those of a process: text over bytes."""
    return io.TextIOWrapper(io.BytesIO(data), encoding="utf-8", errors="backslashreplace", write_through=True)


class WithFolder(unittest.TestCase):
    """A test with a folder of its own."""

    def setUp(self):
        folder = tempfile.TemporaryDirectory()
        self.addCleanup(folder.cleanup)
        self.folder = Path(folder.name)

    def file(self, name, content):
        path = self.folder / name
        path.write_bytes(content if isinstance(content, bytes) else content.encode())
        return path

    def stand_in(self, *lines, then=""):
        """A program in the place of `turns` that prints these lines, whatever it is told."""
        said = "\n".join(lines)
        path = self.file("stand-in", f"#!{sys.executable}\nimport time\nprint({said!r}, flush=True)\n{then}\n")
        path.chmod(0o755)
        return path

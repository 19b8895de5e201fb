"""Whatever is given: the exit status is 0, 1 or 2, and what went wrong is told in a line or two."""

import os
import random
import signal
import subprocess
import sys
from pathlib import Path

from .support import EXAMPLES, PROGRAM, Ran, WithFolder, needs_turns

SCAN = EXAMPLES.parent / "scan.py"
C1 = EXAMPLES / "c1.txt"
TEXTS = [path.read_bytes() for path in sorted(EXAMPLES.iterdir())]
DIGITS = "9" * 5000
PIECES = [
    *(b"", b"\0", b"\xff\xfe", b"\xef\xbb\xbf", b"\r", b"\x85", b"\x1b[2J", "\u00b2\u2028\u0663".encode()),
    *(b",;,", b"#", b"//", b"-1", b"4294967295", b"4294967296", DIGITS.encode(), b"HEX", b"HEX 53,", b"HEX 44 4c 00,"),
    *(b"SC 1,", b"SG", b"SG 9 0,", b"SG 1 4,", b"CC 0,", b"CC 2,", b"PK 2,", b"SP 0 4 4294967295,", b"SP 0 0 0,"),
    *(b"ST ST", b"DL 0 4,", b"open\n"),
]
SHORT = ("--transcript", "--turns", PROGRAM, "--patience", "5")


def mutated(draw, data):
    """Bytes with a few parts left out, doubled or put in."""
    for _ in range(draw.randrange(1, 5)):
        start, end = sorted(draw.randrange(len(data) + 1) for _ in range(2))
        end = min(end, start + draw.choice((0, 1, 2, 40)))
        data = data[:start] + draw.choice((draw.choice(PIECES), data[start:end] * 2, b"")) + data[end:]
    return data


class AnyInput(WithFolder):
    def setUp(self):
        super().setUp()
        self.addCleanup(os.chdir, os.getcwd())
        os.chdir(self.folder)

    def check(self, *arguments, typed=b""):
        with self.subTest(arguments=arguments, typed=typed):
            ran = Ran(*arguments, typed=typed)
            self.assertIn(ran.status, (0, 1, 2))
            if ran.status == 1:
                self.assertIn("REFUSED", ran.out + ran.err)
            if ran.status == 2:
                self.assertRegex(ran.err, r"(?m)^scan.py.*: ")
            return ran

    def test_texts(self):
        draw = random.Random(1)
        for _ in range(300):
            text = mutated(draw, draw.choice(TEXTS))
            self.check("encode", typed=text)
            self.check("decode", typed=text)
            self.check("show", "-", typed=text)

    @needs_turns
    def test_sessions(self):
        draw = random.Random(2)
        for _ in range(150):
            text = mutated(draw, draw.choice(TEXTS))
            order = draw.choice(([], ["--order", "last"], ["--quiet"]))
            self.check("run", "-", "--turns", PROGRAM, *(order or SHORT[:1]), typed=text)
            data = Ran("encode", typed=text).data or text
            self.check("run", "-", "--bytes", *SHORT, typed=mutated(draw, data))

    @needs_turns
    def test_what_is_typed(self):
        draw = random.Random(3)
        for _ in range(50):
            typed = mutated(draw, b"33\n31\n34\n")
            self.check("run", EXAMPLES / "missing-bag.txt", "--order", "ask", "--turns", PROGRAM, typed=typed)

    def test_command_lines(self):
        draw = random.Random(4)
        # A program that says nothing, in this folder: a command line may name it to be written to.
        silent = self.file("silent", "#!/bin/sh\n")
        silent.chmod(0o755)
        commands = ["run", "encode", "decode", "show"]
        words = ["--help", "--bytes", "--order", "first", "random", "ask", "--seed", "--only", "--quiet", "--commas"]
        words += ["--transcript", "--patience", "-o", "--turns", "-", "--", "", "\0", "\udcff", "x" * 5000, "-1", "nan"]
        words += ["inf", "1e300", "0", "5", DIGITS, C1, "none/none", ".", str(silent.resolve()), self.file("text", "text")]
        for _ in range(300):
            self.check(*draw.choices(commands + words, k=draw.randrange(7)), typed=b"SC 1, SG 1 4")
            options = [draw.choice((C1, "-", ".")), *draw.choices(words, k=draw.randrange(4)), "--turns", str(silent.resolve())]
            self.check(draw.choice(commands), *options)

    def test_patience_is_a_time(self):
        for seconds in ("-1", "0", "nan", "inf", "1e300", "soon"):
            self.assertIn("at most 86400", self.check("run", C1, "--patience", seconds).err)

    def test_a_byte_order_mark(self):
        self.assertEqual(self.check("encode", typed=b"\xef\xbb\xbfSC 1").data, b"SC\1\0\0\0")
        self.assertIn("is not text in UTF-8", self.check("encode", typed="SC 1".encode("utf-16")).err)

    def test_files_that_cannot_be_read(self):
        closed = self.file("closed", "SC 1")
        closed.chmod(0)
        names = ["none", ".", "x" * 5000, "\0", "text/none"] + ([] if os.geteuid() == 0 else [closed])
        for name in names:
            self.assertIn("cannot be read", self.check("decode", name).err)
            self.assertEqual(self.check("run", C1, "--turns", name).status, 2)

    def test_a_file_larger_than_any_job(self):
        with open("large", "wb") as file:
            file.truncate(2**24 + 1)
        self.assertIn("has more than 16777216 bytes", self.check("decode", "large").err)


class Processes(WithFolder):
    """With the streams of a process of its own."""

    def start(self, *arguments, **streams):
        variables = {name: value for name, value in os.environ.items() if not name.startswith("PYTHON")}
        pipes = {"stdin": subprocess.DEVNULL, "stdout": subprocess.PIPE, "stderr": subprocess.PIPE, **streams}
        process = subprocess.Popen(
            [sys.executable, SCAN, *arguments],
            env={**variables, "PYTHONDONTWRITEBYTECODE": "1"},
            preexec_fn=lambda: signal.signal(signal.SIGINT, signal.SIG_DFL),
            **pipes,
        )
        self.addCleanup(process.wait, timeout=20)
        for pipe in filter(None, (process.stdin, process.stdout, process.stderr)):
            self.addCleanup(pipe.close)
        return process

    def test_nobody_reads_any_more(self):
        turns = self.stand_in("no 2")
        cut_short = self.file("list", b"\0\0\0\0\1\0\0\0\n\0")
        quiet = (("--help",), ("encode", C1), ("decode", C1), ("run", C1, "--turns", turns))
        for arguments in (*quiet, ("show", cut_short)):
            with self.subTest(arguments):
                read, write = os.pipe()
                os.close(read)
                process = self.start(*arguments, stdout=write)
                os.close(write)
                self.assertEqual(process.stderr.read().count(b"\n"), 0 if arguments in quiet else 1)
                self.assertEqual(process.wait(), 2)

    def test_a_full_disk(self):
        if Path("/dev/full").exists():
            with open("/dev/full", "wb") as full:
                process = self.start("decode", C1, stdout=full)
                self.assertEqual((process.wait(), process.stderr.read()[:27]), (2, b"scan.py: standard output ta"))

    def test_closed_streams(self):
        job = self.stand_in("no 2")
        for closed, status, arguments in (
            ("<&-", 2, ("encode",)),
            ("<&-", 2, ("run", "-")),
            ("<&-", 1, ("run", C1, "--order", "ask", "--turns", job)),
            (">&-", 2, ("decode", C1)),
            ("2>&-", 0, ("decode", C1)),
            ("2>&-", 2, ("run",)),
            ("2>&- <&- >&-", 2, ("run", "-")),
        ):
            with self.subTest(closed=closed, arguments=arguments):
                shell = ["sh", "-c", f'exec "$@" {closed}', "sh", sys.executable, SCAN, *arguments]
                ran = subprocess.run(shell, stdin=subprocess.DEVNULL, capture_output=True, timeout=20)
                self.assertEqual((ran.returncode, b"Traceback" in ran.stdout + ran.stderr), (status, False))

    def test_control_c(self):
        turns = self.stand_in("open", then="time.sleep(60)")
        process = self.start("run", C1, "--turns", turns)
        self.assertIn(b"The core", process.stdout.readline())
        process.send_signal(signal.SIGINT)
        self.assertEqual((process.wait(timeout=20), process.stderr.read()), (2, b"scan.py: stopped\n"))

    def test_a_fault_of_the_tool_is_not_taken_for_a_refusal(self):
        fault = "import runpy, scanlib.options as o; o.main = lambda: 1 / 0; runpy.run_path({!r}, run_name='__main__')"
        broken = fault.format(str(SCAN))
        ran = subprocess.run([sys.executable, "-c", broken], cwd=SCAN.parent, capture_output=True, timeout=20)
        self.assertEqual(ran.returncode, 2)
        self.assertTrue(ran.stderr.startswith(b"scan.py: a fault of this tool"), ran.stderr)

    def test_characters_that_the_terminal_does_not_have(self):
        listed = self.file("list", b"\0\0\0\0\2\0\0\0\xff\n")
        self.assertIn(b"\\xff", self.start("show", listed).stdout.read())

import struct
import unittest

from scanlib.errors import ToolError
from scanlib.notation import parse
from scanlib.records import to_bytes
from scanlib.recorded import show


def listed(*sessions):
    parts = (part for text, answers in sessions for part in (to_bytes(parse(text)), answers.encode()))
    return b"".join(struct.pack("<I", len(part)) + part for part in parts)


TWO = listed(
    ("SC 1, SG 1 4, SP 0 4 1 0 4, ST, DL 0 4, DL 0 4, ST", "open\nread 0 1\nout 0 4 1:0\nno 10\ndone\n"),
    ("HEX 53 50", "no 2\n"),
)


class Show(unittest.TestCase):
    def test_calls_beside_their_answers(self):
        first, second = show(TWO, None)
        self.assertEqual(
            first.splitlines()[:4],
            ["session 0: SC 1, SG 1 4, SP 0 4 1 0 4", "  open", "  ST      read 0 1", "  DL 0 4  out 0 4 1:0"],
        )
        self.assertIn("  DL 0 4  no 10  (REFUSED 10: the read is not in flight", first)
        self.assertIn("session 1: HEX 53 50\n  no 2", second)

    def test_only_one(self):
        self.assertEqual(len(list(show(TWO, 1))), 1)
        with self.assertRaisesRegex(ToolError, "no session 2"):
            list(show(TWO, 2))

    def test_calls_without_answers_and_answers_without_calls(self):
        short, = show(listed(("ST, ST", "no 2\n")), None)
        self.assertIn("session 0: (an empty job)", short)
        self.assertIn("  ST  (no answer)", short)
        long, = show(listed(("SC 1, SG 1 4", "open\ndone\n")), None)
        self.assertIn("(no call)  done", long)

    def test_the_run_at_fault_is_named(self):
        job = "SC 1, SG 1 4, SP 0 4 1 0 4, SP 0 4 2 0 2 1 1"
        told, = show(listed((job, "no 18 1\n")), None)
        self.assertRegex(told.splitlines()[1], r"^  no 18 1  \(REFUSED 18: a kept run starts before the end of the run")
        run = "  run 1 of split 1, both counted from 0: SP 0 4 2 0 2 [1 1]"
        self.assertEqual(told.splitlines()[2:], [run])
        for answer in ("no 18 0", "no 19 1", "no 18", "no 9", "open"):
            with self.subTest(answer):
                other, = show(listed((job, f"{answer}\n")), None)
                self.assertEqual(len(other.splitlines()), 2)

    def test_cut_short(self):
        for length in (1, 3, 10, len(TWO) - 1):
            with self.subTest(length), self.assertRaisesRegex(ToolError, "cut short"):
                list(show(TWO[:length], None))

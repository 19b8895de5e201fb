"""The run at fault: found in the job as opening finds it, and named with its place in the file."""

import unittest

from scanlib.notation import parse
from scanlib.records import from_bytes, to_bytes
from scanlib.runs import first_fault
from scanlib.wording import fault_text, run_text

from .support import Ran, WithFolder

FOUR_ROWS = "SC 1, SG 1 4"
OVERLAP = f"{FOUR_ROWS}, SP 0 4 2 0 2 1 1"


def fault(job):
    return first_fault(parse(job))


class FirstFault(unittest.TestCase):
    def check(self, expected):
        for splits, found in expected.items():
            with self.subTest(splits):
                told = fault(f"{FOUR_ROWS}, {splits}")
                self.assertEqual(told and (told.number, told.split, told.run), found)

    def test_of_one_split(self):
        self.check(
            {
                "SP 0 4 0": None,
                "SP 0 4 2 0 2 2 2": None,
                "SP 0 4 1 0 0": (17, 0, 0),
                "SP 0 4 1 9 0": (17, 0, 0),
                "SP 0 4 2 0 2 1 0": (17, 0, 1),
                "SP 0 4 2 0 2 2 0": (17, 0, 1),
                "SP 0 4 3 0 1 1 1 2 0": (17, 0, 2),
                "SP 0 4 2 0 2 1 9": (18, 0, 1),
                "SP 0 4 3 0 2 2 1 2 1": (18, 0, 2),
                "SP 0 4 2 0 2 2 9": (19, 0, 1),
                "SP 0 4 2 0 9 1 0": (19, 0, 0),
                "SP 2 4 1 2 1": (19, 0, 0),
                "SP 0 4 1 4294967295 2": (19, 0, 0),
            }
        )

    def test_of_several_splits(self):
        kept = "SP 0 4 2 0 1 1 1"
        self.check({f"{kept}, SP 1 3 2 0 1 0 1, SP 0 4 1 0 0": (18, 1, 1), f"{kept}, {kept}, SP 0 0 1 0 1": (19, 2, 0)})

    def test_bytes_behind_it_change_nothing(self):
        self.check({"SP 0 4 1 0 0, HEX 58": (17, 0, 0), "SP 0 4 1 0 0, SG 2 4": (17, 0, 0)})


class Words(unittest.TestCase):
    def test_the_run_stands_in_brackets(self):
        told = run_text(fault(f"{FOUR_ROWS}, SP 0 4 0, SP 0 4 3 0 1 1 1 2 0"))
        self.assertEqual(told, "run 2 of split 1, both counted from 0: SP 0 4 3 0 1 1 1 [2 0]")
        self.assertTrue(run_text(fault(f"{FOUR_ROWS}, SP 0 4 2 9 0 1 1")).endswith(": SP 0 4 2 [9 0] 1 1"))

    def test_what_is_wrong(self):
        expected = {
            "10 20 1 3 0": "its length is 0: a run keeps at least one row",
            "10 20 2 3 2 4 2": "it starts at row 4 of the split, 1 row too early: the run before keeps rows 3 to 4 of it",
            "10 20 2 6 1 0 2": "it starts at row 0 of the split, 7 rows too early: the run before keeps row 6 of it",
            "10 20 1 8 5": "it keeps rows 8 to 12 of the split, 3 rows too many: the split has 10",
            "10 20 1 10 1": "it keeps row 10 of the split, 1 row too many: the split has 10",
        }
        for split, words in expected.items():
            with self.subTest(split):
                self.assertEqual(fault_text(fault(f"SC 1, SG 1 40, SP {split}")), words)


class Named(WithFolder):
    """With a program that says so, whatever it is told."""

    def told(self, content, answer, *more):
        return Ran("run", self.file("job", content), "--turns", self.stand_in(answer), *more)

    def place(self, content, answer="no 18 1", *more):
        """What stands before the run in the line that names it."""
        lines = self.told(content, answer, *more).out.splitlines()
        return lines[2].strip().partition(": run ")[0]

    def test_every_view_names_it(self):
        refusal = "REFUSED 18: a kept run starts before the end of the run before. State afterwards: as it was"
        run = "  line 1: run 1 of split 0, both counted from 0: SP 0 4 2 0 2 [1 1]"
        wrong = "  it starts at row 1 of the split, 1 row too early: the run before keeps rows 0 to 1 of it"
        lines = [refusal, run, wrong]
        ran = self.told(OVERLAP, "no 18 1")
        self.assertEqual((ran.status, ran.out.splitlines()), (1, ["The job is not opened.", *lines]))
        ran = self.told(OVERLAP, "no 18 1", "--quiet")
        self.assertEqual((ran.status, ran.out.splitlines()), (1, lines))
        ran = self.told(OVERLAP, "no 18 1", "--transcript")
        self.assertEqual((ran.status, ran.out, ran.err.splitlines()), (1, "no 18 1\n", lines))

    def test_the_line(self):
        split = "SP 0 4 2 0 2 1 1"
        self.assertEqual(self.place(OVERLAP), "line 1")
        self.assertEqual(self.place(f"# a core\n\nSC 1\nSG 1 4 # bag\n{split}\nST"), "line 5")
        self.assertEqual(self.place(f"SC 1\r\nSG 1 4\r\nSP 0 4 0, SP 0 4 1 0 4, {split}\r\n"), "line 3")
        self.assertEqual(self.place(f"\ufeffSC 1\rSG 1 4\r\r{split}, HEX 58"), "line 4")

    def test_the_line_of_a_split_in_parts(self):
        data = to_bytes(parse("SP 0 4 2 0 2 1 1"))
        for cut, lines in ((22, "line 2"), (21, "line 2"), (26, "lines 1 to 2"), (29, "lines 1 to 2"), (30, "line 1")):
            with self.subTest(cut):
                parts = [f"HEX {part.hex(' ')}" for part in (data[:cut], data[cut:]) if part]
                self.assertEqual(self.place(f"{FOUR_ROWS}, " + "\n".join(parts)), lines)

    def test_bytes_that_are_no_text(self):
        data = to_bytes(parse(OVERLAP))
        self.assertEqual(self.place(data, "no 18 1", "--bytes"), "byte 38, line 3 of what `decode` prints")
        self.assertEqual(data[38:46], b"\1\0\0\0" * 2)
        self.assertEqual(Ran("decode", self.file("job", data)).out.splitlines()[2], "SP 0 4 2 0 2 1 1")
        self.assertEqual(from_bytes(data)[2], fault(OVERLAP).record)

    def test_a_run_that_the_job_does_not_have(self):
        for answer in ("no 18 0", "no 17 1", "no 18 16", "no 19 4294967295"):
            with self.subTest(answer):
                ran = self.told(OVERLAP, answer)
                self.assertEqual((ran.status, ran.out), (2, ""))
                self.assertIn(f"turns printed {answer!r}, but the first run at fault is, by 18, run 1 of", ran.err)
        ran = self.told(f"{FOUR_ROWS}, SP 0 4 2 0 2 2 2", "no 18 1")
        self.assertEqual(ran.status, 2)
        self.assertIn("turns printed 'no 18 1', but no run is at fault", ran.err)

    def test_another_refusal_names_none(self):
        ran = self.told(OVERLAP, "no 8")
        self.assertEqual((ran.status, len(ran.out.splitlines())), (1, 2))

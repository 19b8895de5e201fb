"""What `run` does with a program that goes wrong."""

import os
import time

from .support import EXAMPLES, Ran, WithFolder

C1 = EXAMPLES / "c1.txt"


class Wrong(WithFolder):
    def run_with(self, *lines, then="", more=()):
        return Ran("run", C1, "--turns", self.stand_in(*lines, then=then), *more)

    def test_missing(self):
        ran = Ran("run", C1, "--turns", self.folder / "none")
        self.assertEqual(ran.status, 2)
        self.assertIn("tools/build turns", ran.err)

    def test_not_a_program(self):
        ran = Ran("run", C1, "--turns", self.file("text", "text"))
        self.assertEqual(ran.status, 2)
        self.assertIn("cannot be started", ran.err)

    def test_silent(self):
        ran = self.run_with("open", then="time.sleep(60)", more=("--patience", "0.2"))
        self.assertEqual(ran.status, 2)
        self.assertIn("no answer within 0.2 seconds", ran.err)

    def test_ends_early(self):
        ran = self.run_with("open", "read 0 2")
        self.assertEqual(ran.status, 2)
        self.assertIn("ended without an answer", ran.err)

    def test_nonsense(self):
        lines = ("hello", "ok", "read 0", "out 0 3", "out 0 3 1", "wait 3:0", "read a b", "out -1 3 1:0")
        refusals = ("no", "no a", "no 10 0", "no 18", "no 18 a", "no 18 1 2")
        for line in lines + refusals:
            with self.subTest(line):
                ran = self.run_with("open", line)
                self.assertEqual(ran.status, 2)
                self.assertIn(repr(line), ran.err)

    def test_an_answer_to_something_else(self):
        for lines in (("wait",), ("open", "open"), ("open", "read 0 2", "read 1 1", "wait", "open")):
            with self.subTest(lines):
                ran = self.run_with(*lines)
                self.assertEqual(ran.status, 2)
                self.assertIn(f"turns printed {lines[-1]!r} where", ran.err)

    def test_a_segment_that_the_job_does_not_have(self):
        ran = self.run_with("open", "read 0 9")
        self.assertEqual(ran.status, 2)
        self.assertIn("does not have: read 0 9", ran.err)

    def test_a_read_that_was_never_made(self):
        ran = self.run_with("open", "read 5 2", "wait", "wait", "wait")
        self.assertEqual(ran.status, 2)
        self.assertIn("accepts read 0, which is not in flight", ran.err)

    def test_wrong_depth(self):
        ran = self.run_with("open", "out 0 2 2:0")
        self.assertEqual(ran.status, 2)
        self.assertIn("WRONG DEPTH", ran.err)

    def test_opens_anything(self):
        ran = Ran("run", self.file("job", "SC 1, SG 1 4, SG 2 4"), "--turns", self.stand_in("open"))
        self.assertEqual((ran.status, ran.out), (2, ""))
        self.assertIn("turns opened a job that is none", ran.err)

    def test_is_done_too_early(self):
        ran = self.run_with("open", "done")
        self.assertEqual(ran.status, 2)
        self.assertIn("not all kept rows are out", ran.err)
        self.assertNotIn("DONE", ran.out)

    def test_reads_nothing(self):
        job = self.file("job", "SC 1\n" + "SG 1 4\n" * 10_000)
        ran = Ran("run", job, "--turns", self.stand_in("no 3", then="time.sleep(60)"), "--patience", "0.2")
        self.assertEqual(ran.status, 2)
        self.assertIn("read nothing within 0.2 seconds", ran.err)

    def test_left_behind_programs_are_not_waited_for(self):
        began = time.monotonic()
        ran = self.run_with("hello", then="import os\nif os.fork() == 0: os.close(2), time.sleep(5)")
        self.assertEqual(ran.status, 2)
        self.assertLess(time.monotonic() - began, 5)

    def test_in_the_folder_where_one_stands(self):
        turns = self.stand_in("no 2")
        before = os.getcwd()
        os.chdir(self.folder)
        self.addCleanup(os.chdir, before)
        self.assertEqual(Ran("run", C1, "--turns", turns.name).status, 1)

    def test_waits_for_nothing(self):
        for more in ((), ("--order", "first")):
            ran = self.run_with("open", "wait", more=more)
            self.assertEqual(ran.status, 2)
            self.assertIn("no read is in flight", ran.err)

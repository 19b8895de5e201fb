"""Whole sessions with the program `turns`."""

import collections
import random

from .support import EXAMPLES, PROGRAM, Ran, WithFolder, needs_turns

C1 = """\
open
read 0 2
read 1 1
wait
wait
out 0 3 1:0
out 0 2 2:0
done
"""
FOUR_ROWS = "SC 1, SG 1 4"
RUNS_AT_FAULT = {
    "0 4 1 0 0": "no 17 0",
    "0 4 1 9 0": "no 17 0",
    "0 4 2 0 2 1 0": "no 17 1",
    "0 4 2 0 2 1 9": "no 18 1",
    "0 4 2 0 2 2 9": "no 19 1",
    "0 4 2 0 9 1 0": "no 19 0",
    "0 5 1 0 0": "no 8",
    "0 4 3 0 1 1 1 2 0": "no 17 2",
    "0 4 1 4294967295 2": "no 19 0",
    "0 4 1 0 0, HEX 58": "no 17 0",
    "0 4 2 0 2 2 0": "no 17 1",
}
CASES = {
    "C2": ("SC 1, SG 1 3, SG 2 2, SG 3 4, CC 3, SP 0 9 2 0 3 5 4", ["out 0 3 1:0", "out 0 4 3:0", "done"]),
    "C3": ("SC 1, SG 1 4, SG 2 1, SG 3 3, CC 2, PK 2, SP 0 4 1 0 4", ["out 0 1 1:0 2:0", "out 0 3 1:1 3:0", "done"]),
    "C4": ("SC 1, SG 7 6, SP 0 2 1 0 2, SP 2 6 1 0 4", ["out 0 2 7:0", "out 1 4 7:2", "done"]),
    "C5": (FOUR_ROWS, ["open", "done"]),
    "C6": (f"{FOUR_ROWS}, SP 0 4 0", ["open", "done"]),
    "C7": (f"{FOUR_ROWS}, SP 0 4 2 0 2 2 1", ["out 0 3 1:0", "done"]),
    "C8": (f"{FOUR_ROWS}, SP 0 4 2 0 2 3 1", ["out 0 2 1:0", "out 0 1 1:3", "done"]),
    "C9": ("", ["no 2"]),
}
WIDE = {
    "SC 2, SG 1 65535, SG 2 1, SG 3 1, CC 3, SP 65536 65537 1 0 1, SP 0 65537 1 0 65537, "
    "ST, ST, DL 0 1, DL 1 65535, ST, DL 2 1, ST, ST": ["out 1 1 2:0", "out 0 1 3:0", "out 1 1 3:0", "done"],
    "SC 2, SG 1 1, SG 2 65537, CC 2, SG 3 65538, PK 2, SP 1 2 1 0 1, SP 0 65538 2 0 65536 65537 1, SP 1 2 0, "
    "ST, ST, DL 1 65538, DL 0 1, DL 2 65537, ST, ST, ST": ["out 0 1 2:0 3:1", "out 1 1 2:65536 3:65537", "done"],
}
JOINS_OF_ONE = {
    "SC 1, SG 1 4, SG 2 4, CC 1, CC 2, SP 0 8 1 0 8, ST, ST, ST": ["open", "read 0 2", "read 1 1", "wait"],
    "SC 1, SG 1 4, CC 1, PK 1, SP 0 4 1 0 4, ST, ST, DL 0 4, ST": ["open", "read 0 1", "wait", "out 0 4 1:0", "done"],
    "SC 1, SG 1 1, CC 1, PK 1, SG 2 1, SG 3 1, CC 2, CC 2, SP 0 3 1 0 3, ST, ST, ST, ST": [
        "open",
        "read 0 1",
        "read 1 3",
        "read 2 2",
        "wait",
    ],
    "SC 1, SG 1 1" + ", CC 1" * 23: ["open", "done"],
    "SC 1, SG 1 1" + ", CC 1" * 24: ["no 3"],
    "SC 1" + ", SG 1 4" * 22 + ", CC 22, PK 1": ["open", "done"],
    "SC 1" + ", SG 1 4" * 23 + ", CC 23, CC 1": ["no 3"],
}


@needs_turns
class Sessions(WithFolder):
    def run_job(self, text, *more, typed=""):
        return Ran("run", self.file("job.txt", text), "--turns", PROGRAM, *more, typed=typed)

    def example(self, name, *more, typed=""):
        return self.run_job((EXAMPLES / name).read_text(), *more, typed=typed)

    def test_c1_as_the_documents_have_it(self):
        ran = self.example("c1.txt", "--transcript")
        self.assertEqual((ran.status, ran.out, ran.err), (0, C1, ""))

    def test_the_other_cases(self):
        for name, (job, last) in CASES.items():
            with self.subTest(name):
                ran = self.run_job(job, "--transcript")
                self.assertEqual(ran.out.splitlines()[-len(last) :], last)
                self.assertEqual(ran.status, 1 if last[0].startswith("no") else 0)
                self.assertEqual("REFUSED" in ran.err, ran.status == 1)

    def test_runs_that_meet_are_shown_as_one_stretch(self):
        lines = self.run_job("SC 1, SG 1 12, SP 0 12 3 0 5 5 2 9 1").out.splitlines()
        self.assertIn("   3  split 0 [#######xx.xx] 7 of 8, rows 0 to 6: bag 1 rows 0 to 6", lines)
        self.assertIn("    rows 0 to 6    bag 1 rows 0 to 6", lines)

    def test_runs_at_fault(self):
        seventeen = "SC 1, SG 1 40, SP 0 40 17 " + " ".join(f"{row} 1" for row in range(17))
        jobs = {f"{FOUR_ROWS}, SP {split}": answer for split, answer in RUNS_AT_FAULT.items()}
        for job, answer in {**jobs, seventeen: "no 3"}.items():
            with self.subTest(job):
                ran = self.run_job(job, "--transcript")
                self.assertEqual((ran.status, ran.out), (1, f"{answer}\n"))

    def test_any_runs(self):
        """Each refusal of a run is held against the job: were it another run, the status would be 2."""
        draw = random.Random(6)
        told = collections.Counter()
        for _ in range(200):
            runs = [f"{draw.randrange(-(-run * 3 // 2) + 3)} {draw.randrange(4)}" for run in range(draw.randrange(5))]
            job = f"SC 1, SG 1 8, SP 0 8 1 0 8, SP 1 8 {len(runs)} {' '.join(runs)}"
            with self.subTest(job):
                ran = self.run_job(job, "--quiet")
                self.assertIn(ran.status, (0, 1), ran.err)
                told[ran.out.split(":")[0]] += 1
        self.assertLess({"REFUSED 17", "REFUSED 18", "REFUSED 19"}, set(told))

    def test_c2_never_reads_the_segment_left_out(self):
        self.assertNotIn("asks for bag 2", self.run_job(CASES["C2"][0]).out)

    def test_c10_goes_on_after_a_refused_delivery(self):
        job = f"{FOUR_ROWS}, SP 0 4 1 0 4, ST, ST, DL 0 4, DL 0 4, ST"
        lines = self.run_job(job, "--transcript").out.splitlines()
        self.assertEqual(lines, ["open", "read 0 1", "wait", "out 0 4 1:0", "no 10", "done"])
        ran = self.run_job(job)
        self.assertEqual(ran.status, 1)
        self.assertIn("DL 0 4\n      REFUSED 10: the read is not in flight", ran.out)
        self.assertIn("DONE", ran.out)

    def test_ports_full_by_their_rows(self):
        for job, last in WIDE.items():
            with self.subTest(job):
                ran = self.run_job(job, "--transcript")
                self.assertEqual((ran.status, ran.out.splitlines()[-len(last) :]), (0, last))

    def test_joins_of_one_child(self):
        for job, lines in JOINS_OF_ONE.items():
            with self.subTest(job):
                self.assertEqual(self.run_job(job, "--transcript").out.splitlines(), lines)

    def test_joins_of_one_child_are_not_seen(self):
        joined = "SC 2, SG 1 4, CC 1, SG 2 1, PK 1, SG 3 3, CC 2, CC 1, PK 2, PK 1, SP 0 4 2 0 2 3 1, SP 2 4 1 0 2"
        plain = "SC 2, SG 1 4, SG 2 1, SG 3 3, CC 2, PK 2, SP 0 4 2 0 2 3 1, SP 2 4 1 0 2"
        for order in ("first", "last"):
            ran = [self.run_job(job, "--order", order) for job in (joined, plain)]
            self.assertEqual([one.status for one in ran], [0, 0])
            self.assertEqual(ran[0].out, ran[1].out)

    def test_every_order_gives_the_same_readout(self):
        for name in ("c1.txt", "missing-bag.txt", "two-columns.txt", "wide-bags.txt"):
            orders = [("first",), ("last",), ("random", "--seed", "3"), ("random", "--seed", "4")]
            ran = [self.example(name, "--quiet", "--order", *order) for order in orders]
            self.assertEqual({one.status for one in ran}, {0})
            self.assertEqual(len({one.out for one in ran}), 1, name)
            self.assertNotIn("TO COME", ran[0].out)

    def test_orders_differ_in_their_turns(self):
        first, last = (self.example("missing-bag.txt", "--order", order).out for order in ("first", "last"))
        self.assertLess(first.index("> bag 34"), first.index("> bag 31"))
        self.assertLess(last.index("> bag 31"), last.index("> bag 34"))

    def test_one_seed_is_one_order(self):
        once, again = (self.example("missing-bag.txt", "--order", "random", "--seed", "5").out for _ in range(2))
        self.assertEqual(once, again)

    def test_the_technician_is_asked(self):
        ran = self.example("missing-bag.txt", "--order", "ask", typed="33\n32\n²\n\n34\n")
        self.assertEqual(ran.status, 0)
        self.assertIn("Which has come, bag 31, bag 33 and bag 34? [31]", ran.err)
        self.assertIn("32 is not awaited", ran.err)
        arrivals = [line.split()[2] for line in ran.out.splitlines() if "> bag" in line]
        self.assertEqual(arrivals, ["33", "31", "34"])

    def test_the_technician_leaves(self):
        ran = self.example("missing-bag.txt", "--order", "ask", typed="33\n")
        self.assertEqual(ran.status, 2)
        self.assertIn("the input ended before all bags came", ran.err)

    def test_the_awaited_bag_is_named(self):
        lines = self.example("missing-bag.txt", "--order", "first").out.splitlines()
        place = lines.index("   5  WAITING for bag 31 and bag 33")
        stands = "split 0 [....!.xx.....]  0 of 10, stands at row 0 until bag 31 comes in"
        self.assertEqual(lines[place + 1].strip(), stands)

    def test_a_bag_comes_in_above_the_turn_of_its_delivery(self):
        lines = self.example("c1.txt").out.splitlines()
        place = lines.index("      > bag 1 comes in (3 rows)")
        self.assertEqual(lines[place + 1], "   5  split 0 [###..] 3 of 5, rows 0 to 2: bag 1 rows 0 to 2")

    def test_the_readme_shows_what_is_printed(self):
        readme = (EXAMPLES.parent / "README.md").read_text()
        shown = [line.strip() for line in readme.splitlines() if line.startswith("    ") and "python3" not in line]
        examples = ("missing-bag.txt", "overlap.txt")
        printed = [line.strip() for name in examples for line in self.example(name).out.splitlines()]
        self.assertEqual(len(shown), 12)
        self.assertLess(set(shown), set(printed))

    def test_damaged_jobs_are_refused_at_once(self):
        for text in ("HEX 53", "SC 1, SG 1 4, HEX 58 58, ST", "SC 1, HEX 53 50 01", f"{FOUR_ROWS}, HEX 53"):
            with self.subTest(text):
                ran = self.run_job(text, "--transcript", "--patience", "5")
                self.assertEqual((ran.status, ran.out), (1, "no 2\n"))

    def test_a_damaged_call_ends_the_session(self):
        for damage in ("HEX 44 4c 00", "HEX 53", "SC 1", "SC 1, ST"):
            with self.subTest(damage):
                ran = self.run_job(f"{FOUR_ROWS}, ST, {damage}", "--transcript", "--patience", "5")
                self.assertEqual((ran.status, ran.out), (1, "open\ndone\nno 2\n"))

    def test_bytes_in_place_of_text(self):
        Ran("encode", EXAMPLES / "c1.txt", "-o", self.folder / "c1.job")
        ran = Ran("run", self.folder / "c1.job", "--bytes", "--transcript", "--turns", PROGRAM)
        self.assertEqual(ran.out, C1)

    def test_without_calls_and_order_the_reads_are_served(self):
        self.assertIn("DONE", self.example("two-columns.txt").out)

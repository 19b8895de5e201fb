import random
import unittest

from scanlib.answers import Column, parse_answer
from scanlib.errors import ToolError
from scanlib.notation import parse
from scanlib.plan import Rows, make_plan
from scanlib.readout import Piece, Readout
from scanlib.records import STEP
from scanlib.report import core_lines, readout_lines
from scanlib.wording import bags_text, bar, place_text, progress_text

GAPS = "SC 1, SG 31 4, SG 32 0, SG 33 3, SG 34 5, CC 4, SP 0 12 2 0 5 7 5"
PASSES = "SC 1, SG 1 12, SP 0 12 3 0 5 5 2 9 1"


def after(job, *exchanges):
    """The readout after calls and their answers."""
    readout = Readout(make_plan(parse(job)))
    for call, line in exchanges:
        readout.note(parse(call)[0], parse_answer(line))
    return readout


class Awaited(unittest.TestCase):
    def test_bags_in_flight(self):
        readout = after(GAPS, ("ST", "read 0 34"), ("ST", "read 1 31"))
        self.assertEqual(readout.awaited(), [31, 34])
        self.assertEqual(readout.needed(0), [31])
        self.assertEqual(readout.next_row(0), 0)

    def test_a_bag_that_came(self):
        readout = after(GAPS, ("ST", "read 0 34"), ("ST", "read 1 31"), ("DL 1 4", "read 2 33"))
        self.assertEqual(readout.awaited(), [33, 34])
        self.assertEqual(readout.needed(0), [])

    def test_rows_that_come_out_at_a_delivery(self):
        readout = after(GAPS, ("ST", "read 0 31"), ("DL 0 4", "out 0 4 31:0"))
        self.assertEqual((readout.awaited(), readout.next_row(0)), ([], 4))

    def test_a_wait_behind_the_last_delivery(self):
        with self.assertRaisesRegex(ToolError, "no read is in flight"):
            after(GAPS, ("ST", "read 0 31"), ("DL 0 4", "wait"))

    def test_a_row_of_two_columns_needs_both_bags(self):
        readout = after("SC 1, SG 1 2, SG 2 2, PK 2, SP 0 2 1 1 1")
        self.assertEqual((readout.next_row(0), readout.needed(0)), (1, [1, 2]))

    def test_as_many_splits_stand_as_there_are_slots(self):
        job = "SC 2, SG 1 6, SP 0 2 1 0 2, SP 2 3 0, SP 2 4 1 0 2, SP 4 6 1 0 2"
        self.assertEqual(after(job).standing(), [0, 2])
        self.assertEqual(after(job, ("ST", "out 0 2 1:0")).standing(), [2, 3])


class Depth(unittest.TestCase):
    def test_rows_out_behind_a_gap(self):
        readout = after(GAPS, ("ST", "out 0 4 31:0"), ("ST", "out 0 1 33:0"), ("ST", "out 0 5 34:0"))
        self.assertEqual(readout.pieces[2], Piece(0, Rows(7, 12), (Column(34, 0),)))
        self.assertFalse(any(readout.wrong_depth(piece) for piece in readout.pieces))
        self.assertTrue(readout.is_complete(0))

    def test_a_batch_over_runs_that_meet(self):
        readout = after("SC 1, SG 1 4, SP 0 4 2 0 2 2 1", ("ST", "out 0 3 1:0"))
        self.assertEqual(readout.pieces, [Piece(0, Rows(0, 3), (Column(1, 0),))])
        self.assertFalse(readout.wrong_depth(readout.pieces[0]))

    def test_wrong_depths(self):
        for line in ("out 0 4 33:0", "out 0 4 31:1", "out 0 5 31:0", "out 0 4 31:0 31:0"):
            with self.subTest(line):
                readout = after(GAPS, ("ST", line))
                self.assertTrue(any(readout.wrong_depth(piece) for piece in readout.pieces))

    def test_rows_that_are_not_kept(self):
        for line in ("out 0 11 31:0", "out 1 1 31:0", "out 0 0 31:0"):
            with self.subTest(line), self.assertRaisesRegex(ToolError, "does not keep"):
                after(GAPS).note(STEP, parse_answer(line))


class Bars(unittest.TestCase):
    def test_gap_and_missing_bag(self):
        self.assertEqual(bar(after(GAPS), 0), "....!.xx.....")
        self.assertEqual(bar(after(GAPS, ("ST", "out 0 4 31:0")), 0), "####!.xx.....")

    def test_runs_that_meet_are_one_stretch(self):
        self.assertEqual(bar(after(PASSES), 0), ".......xx.xx")
        self.assertEqual(bar(after(PASSES, ("ST", "out 0 7 1:0")), 0), "#######xx.xx")
        self.assertEqual(bar(after("SC 1, SG 1 1000, SP 0 1000 3 0 1 1 1 2 998"), 0), "." * 32)

    def test_a_long_split_is_scaled(self):
        job = "SC 1, SG 1 4294967295, SP 0 4294967295 1 0 2147483648"
        self.assertEqual(bar(after(job), 0), "." * 16 + "x" * 16)
        self.assertEqual(bar(after(job, ("ST", "out 0 1073741824 1:0")), 0), "#" * 8 + "." * 8 + "x" * 16)
        self.assertIn("(a sign: up to 134217728 rows)", core_lines(after(job).plan)[-1])

    def test_nothing_is_too_short_to_be_seen(self):
        left_out = "SC 1, SG 1 1000, SP 0 1000 2 0 500 501 499"
        self.assertEqual(bar(after(left_out), 0), "." * 16 + "x" + "." * 16)
        kept = "SC 1, SG 1 1000, SP 0 1000 2 0 1 500 1"
        self.assertEqual(bar(after(kept), 0), "." + "x" * 16 + "." + "x" * 16)
        self.assertEqual(bar(after(kept, ("ST", "out 0 1 1:0")), 0), "#" + "x" * 16 + "." + "x" * 16)
        around_a_bag = "SC 1, SG 1 999, SG 9 0, SG 2 1, CC 3, SP 0 1000 1 0 1000"
        self.assertEqual(bar(after(around_a_bag), 0), "." * 32 + "!.")

    def test_a_sign_is_out_when_all_its_rows_are(self):
        job = "SC 1, SG 1 64, SP 0 64 1 0 64"
        for out, signs in ((1, 0), (2, 1), (3, 1), (63, 31), (64, 32)):
            self.assertEqual(bar(after(job, ("ST", f"out 0 {out} 1:0")), 0), "#" * signs + "." * (32 - signs))

    def test_missing_bags_at_the_ends(self):
        self.assertEqual(bar(after("SC 1, SG 8 0, SG 1 2, SG 9 0, SG 7 0, CC 4, SP 0 2 1 0 2"), 0), "!..!!")

    def test_an_empty_split(self):
        self.assertEqual(bar(after("SC 1, SG 1 0, SP 0 0 0"), 0), "!")
        self.assertEqual(bar(after("SC 1, SG 1 2, SP 1 1 0"), 0), "")

    def test_bars_of_several_splits_line_up(self):
        short = "".join(f", SP {row} {row + 1} 1 0 1" for row in range(10))
        readout = after(f"SC 1, SG 1 8, SG 9 0, SG 2 12, CC 3{short}, SP 8 20 1 1 11", ("ST", "out 10 11 2:1"))
        lines = [progress_text(readout, split) for split in (0, 7, 10)]
        self.assertEqual(lines[0], "split  0 [.           ]  0 of  1")
        self.assertEqual(lines[1], "split  7 [.!          ]  0 of  1")
        self.assertEqual(lines[2], "split 10 [x###########] 11 of 11")


class Words(unittest.TestCase):
    def test_bags(self):
        self.assertEqual(bags_text([1]), "bag 1")
        self.assertEqual(bags_text([1, 2, 3]), "bag 1, bag 2 and bag 3")

    def test_core(self):
        self.assertEqual(
            core_lines(make_plan(parse(GAPS)))[:4],
            [
                "The core: rows 0 to 11",
                "  column 0: bag 31 rows 0 to 3, bag 32 MISSING (stored with no rows),",
                "            bag 33 rows 4 to 6, bag 34 rows 7 to 11",
                "  split 0: rows 0 to 11, 10 kept, left out: rows 5 to 6",
            ],
        )

    def test_runs_that_meet_leave_nothing_out_between_them(self):
        expected = "  split 0: rows 0 to 11, 8 kept, left out: rows 7 to 8, rows 10 to 11"
        self.assertEqual(core_lines(make_plan(parse(PASSES)))[2], expected)

    def test_no_line_of_the_core_is_long(self):
        runs = " ".join(f"{2 * run} 1" for run in range(16))
        lines = core_lines(make_plan(parse(f"SC 1, SG 1 99, SP 0 99 16 {runs}")))
        self.assertLess(max(map(len, lines)), 81)


class DepthReadout(unittest.TestCase):
    """What stands below the first line."""

    def lines(self, job, *exchanges):
        return [line[2:] for line in readout_lines(after(job, *exchanges))[1:]]

    def test_before_the_end(self):
        self.assertEqual(
            self.lines(GAPS, ("ST", "out 0 4 31:0")),
            [
                "split 0: 4 of 10 rows",
                "  rows 0 to 3           bag 31 rows 0 to 3",
                "  between rows 3 and 4  GAP, bag 32 MISSING from column 0 (stored with no rows)",
                "  row 4                 TO COME",
                "  rows 5 to 6           GAP, left out",
                "  rows 7 to 11          TO COME",
            ],
        )

    def test_runs_that_meet(self):
        left_out = ["  rows 7 to 8    GAP, left out", "  row 9          TO COME", "  rows 10 to 11  GAP, left out"]
        to_come = ["split 0: 0 of 8 rows", "  rows 0 to 6    TO COME", *left_out]
        self.assertEqual(self.lines(PASSES), to_come)
        out = ["split 0: 7 of 8 rows", "  rows 0 to 6    bag 1 rows 0 to 6", *left_out]
        self.assertEqual(self.lines(PASSES, ("ST", "out 0 7 1:0")), out)

    def test_missing_bags_side_by_side_and_one_over_the_other(self):
        job = "SC 1, SG 1 4, SG 9 0, SG 3 0, SG 4 4, CC 4, SG 5 4, SG 9 0, SG 6 4, CC 3, PK 2, SP 0 8 1 0 8"
        self.assertEqual(
            self.lines(job),
            [
                "split 0: 0 of 8 rows",
                "  rows 0 to 3           TO COME",
                "  between rows 3 and 4  GAP, bag 9 MISSING from column 0 (stored with no rows)",
                "  between rows 3 and 4  GAP, bag 3 MISSING from column 0 (stored with no rows)",
                "  between rows 3 and 4  GAP, bag 9 MISSING from column 1 (stored with no rows)",
                "  rows 4 to 7           TO COME",
            ],
        )

    def test_at_the_border_of_two_splits_a_bag_is_told_once(self):
        self.assertEqual(
            self.lines("SC 1, SG 1 4, SG 9 0, SG 2 4, CC 3, SP 0 4 1 0 4, SP 4 8 1 0 4"),
            [
                "split 0: 0 of 4 rows",
                "  rows 0 to 3           TO COME",
                "  between rows 3 and 4  GAP, bag 9 MISSING from column 0 (stored with no rows)",
                "split 1: 0 of 4 rows",
                "  rows 4 to 7           TO COME",
            ],
        )

    def test_at_the_top_and_the_bottom_only_rows_that_are_there_are_named(self):
        self.assertEqual(
            self.lines("SC 1, SG 8 0, SG 1 1, SG 9 0, CC 3, SP 0 1 1 0 1"),
            [
                "split 0: 0 of 1 row",
                "  above row 0  GAP, bag 8 MISSING from column 0 (stored with no rows)",
                "  row 0        TO COME",
                "  below row 0  GAP, bag 9 MISSING from column 0 (stored with no rows)",
            ],
        )

    def test_among_rows_that_are_left_out(self):
        self.assertEqual(
            self.lines("SC 1, SG 1 4, SG 9 0, SG 2 4, CC 3, SP 0 8 1 0 2"),
            [
                "split 0: 0 of 2 rows",
                "  rows 0 to 1           TO COME",
                "  rows 2 to 3           GAP, left out",
                "  between rows 3 and 4  GAP, bag 9 MISSING from column 0 (stored with no rows)",
                "  rows 4 to 7           GAP, left out",
            ],
        )

    def test_what_no_split_has_is_told_too(self):
        self.assertEqual(
            self.lines("SC 1, SG 1 4, SG 9 0, SG 2 4, CC 3, SP 0 1 1 0 1, SP 6 8 0"),
            [
                "split 0: 0 of 1 row",
                "  row 0                 TO COME",
                "split 1: 0 of 0 rows",
                "  rows 6 to 7           GAP, left out",
                "in no split:",
                "  rows 1 to 3           GAP, not read",
                "  between rows 3 and 4  GAP, bag 9 MISSING from column 0 (stored with no rows)",
                "  rows 4 to 5           GAP, not read",
            ],
        )

    def test_a_core_without_rows(self):
        missing = [f"  no rows  GAP, bag {bag} MISSING from column 0 (stored with no rows)" for bag in (9, 3)]
        self.assertEqual(self.lines("SC 1, SG 9 0, SG 3 0, CC 2"), ["in no split:", *missing])
        self.assertEqual(self.lines("SC 1, SG 9 0, SG 3 0, CC 2, SP 0 0 0"), ["split 0: 0 of 0 rows", *missing])

    def test_every_row_and_every_missing_bag_of_random_cores(self):
        """Each row stands in each split that has it, or in none; each missing bag at its place."""
        draw = random.Random(1)
        for _ in range(200):
            job = random_job(draw)
            with self.subTest(job):
                self.check(make_plan(parse(job)), self.lines(job))

    def check(self, plan, lines):
        told = [line for line in lines if "MISSING" in line]
        for gap in plan.missing():
            text = f"bag {gap.segment} MISSING from column {gap.column} "
            place = f" {place_text(gap, plan)} "
            times = max(1, sum(split.start < gap.row < split.end for split in plan.splits))
            self.assertEqual(sum(text in line and place in line for line in told), times)
        places = " ".join(line.split("  ")[1] for line in lines if line.startswith("  "))
        named = [int(word) for word in places.split() if word.isdigit()]
        self.assertTrue(all(row < plan.rows for row in named), named)
        rows = sum(split.end - split.start for split in plan.splits) + sum(end - start for start, end in plan.outside())
        self.assertEqual(sum(map(rows_in, lines)), rows)


def rows_in(line):
    """How many rows a line of the readout stands for."""
    words = line.split()
    if words[0] == "row":
        return 1
    return int(words[3]) - int(words[1]) + 1 if words[0] == "rows" else 0


def random_job(draw):
    """Two columns of the same rows, each of bags of which some are missing, and some splits."""
    rows = draw.randrange(9)
    records = ["SC 1"]
    for column in (1, 2):
        borders = sorted(draw.choice((0, rows, draw.randrange(rows + 1))) for _ in range(draw.randrange(5)))
        ends = list(zip([0, *borders], [*borders, rows]))
        records += [f"SG {draw.randrange(10)}{end - start} {end - start}" for start, end in ends] + [f"CC {len(ends)}"]
    records.append("PK 2")
    for _ in range(draw.randrange(4)):
        start, end = sorted(draw.randrange(rows + 1) for _ in range(2))
        kept = draw.randrange(end - start + 1)
        runs = f"1 {draw.randrange(end - start - kept + 1)} {kept}" if kept else "0"
        records.append(f"SP {start} {end} {runs}")
    return ", ".join(records)

import unittest

from scanlib.errors import ToolError
from scanlib.notation import parse
from scanlib.plan import Missing, Rows, Span, cut, make_plan


def plan(text):
    return make_plan(parse(text))


class Core(unittest.TestCase):
    def test_bags_joined_downwards(self):
        found = plan("SC 2, SG 1 3, SG 2 0, SG 3 4, CC 3")
        self.assertEqual(found.columns, [[Span(0, 3, 1), Span(3, 3, 2), Span(3, 7, 3)]])
        self.assertEqual((found.slots, found.rows, found.segments), (2, 7, {1: 3, 2: 0, 3: 4}))
        self.assertEqual(found.missing(), [Missing(3, 0, 2)])

    def test_columns_side_by_side(self):
        found = plan("SC 1, SG 1 4, SG 2 1, SG 3 3, CC 2, PK 2, SG 4 2, SG 5 2, PK 2, CC 2")
        self.assertEqual(found.columns[0], [Span(0, 4, 1), Span(4, 6, 4)])
        self.assertEqual(found.columns[1], [Span(0, 1, 2), Span(1, 4, 3), Span(4, 6, 5)])
        self.assertEqual(found.span_at(1, 4), Span(4, 6, 5))


    def test_a_join_of_one_child_is_that_child(self):
        joined = plan("SC 1, SG 1 4, CC 1, PK 1, SG 2 1, PK 1, SG 3 3, CC 2, CC 1, PK 2, PK 1, SP 1 4 1 0 2")
        self.assertEqual(joined, plan("SC 1, SG 1 4, SG 2 1, SG 3 3, CC 2, PK 2, SP 1 4 1 0 2"))
        self.assertEqual(plan("SC 1, SG 1 4" + ", CC 1" * 23), plan("SC 1, SG 1 4"))


class WrongJobs(unittest.TestCase):
    def test_what_no_plan_can_be_made_of(self):
        one = "SC 1, SG 1 4"
        nodes = ("SC 1", "HEX 00", f"{one}, CC 0", f"{one}, CC 2", f"{one}, SG 2 4", f"{one}, SG 2 3, PK 2")
        childless = ("SC 1, CC 1", "SC 1, PK 1")
        ranges = ("0 5 0", "3 2 0")
        runs = ("0 4 1 3 2", "0 4 2 2 1 0 1", "0 4 2 0 2 1 2", "0 4 2 0 2 2 3", "0 4 1 0 0", "0 4 2 0 2 2 0")
        with_splits = (f"{one}, SP {split}" for split in ranges + runs)
        for job in (*nodes, *childless, *with_splits, f"{one}, SG 2 4, PK 2, SG 3 4, CC 2"):
            with self.subTest(job), self.assertRaisesRegex(ToolError, "opened a job that is none"):
                plan(job)


class MissingBags(unittest.TestCase):
    def test_by_depth_and_not_by_number(self):
        found = plan("SC 1, SG 1 4, SG 9 0, SG 3 0, SG 4 4, CC 4").missing()
        self.assertEqual(found, [Missing(4, 0, 9), Missing(4, 0, 3)])

    def test_once_for_each_place(self):
        same = plan("SC 1, SG 9 0, SG 9 0, SG 1 4, SG 9 0, CC 4")
        self.assertEqual(same.missing(), [Missing(0, 0, 9), Missing(4, 0, 9)])
        beside = plan("SC 1, SG 1 4, SG 9 0, CC 2, SG 9 0, SG 2 4, SG 9 0, CC 3, PK 2")
        self.assertEqual(beside.missing(), [Missing(0, 1, 9), Missing(4, 0, 9), Missing(4, 1, 9)])

    def told_by(self, splits):
        found = plan(f"SC 1, SG 1 4, SG 9 0, SG 2 4, CC 3{splits}")
        return found.told_by(found.missing()[0])

    def test_which_splits_tell_of_it(self):
        expected = {
            "": [],
            ", SP 0 3 0, SP 5 8 0": [],
            ", SP 0 8 0": [0],
            ", SP 0 4 0, SP 4 8 0": [0],
            ", SP 4 8 0, SP 0 4 0": [0],
            ", SP 4 4 0, SP 4 8 0": [1],
            ", SP 4 4 0": [0],
            ", SP 0 4 0, SP 0 8 0, SP 2 6 0, SP 4 8 0": [1, 2],
        }
        for splits, numbers in expected.items():
            with self.subTest(splits):
                self.assertEqual(self.told_by(splits), numbers)

    def test_rows_are_cut_where_a_bag_is_missing(self):
        gaps = [Missing(row, 0, 9) for row in (0, 3, 3, 5, 8)]
        self.assertEqual(cut([Rows(0, 4), Rows(5, 8)], gaps), [Rows(0, 3), Rows(3, 4), Rows(5, 8)])


class Outside(unittest.TestCase):
    def test_rows_that_no_split_has(self):
        expected = {
            "": [Rows(0, 9)],
            ", SP 0 9 0": [],
            ", SP 4 4 0": [Rows(0, 9)],
            ", SP 6 8 0, SP 1 3 0, SP 2 4 0": [Rows(0, 1), Rows(4, 6), Rows(8, 9)],
            ", SP 0 6 0, SP 2 3 0": [Rows(6, 9)],
        }
        for splits, rows in expected.items():
            with self.subTest(splits):
                self.assertEqual(plan(f"SC 1, SG 1 9{splits}").outside(), rows)


class Splits(unittest.TestCase):
    def setUp(self):
        self.split = plan("SC 1, SG 1 20, SP 10 20 2 1 3 6 2").splits[0]

    def test_kept_rows_and_gaps(self):
        self.assertEqual(self.split.kept, (Rows(11, 14), Rows(16, 18)))
        self.assertEqual(self.split.count, 5)
        self.assertEqual(self.split.gaps(), [Rows(10, 11), Rows(14, 16), Rows(18, 20)])

    def test_runs_that_meet_are_joined(self):
        split = plan("SC 1, SG 1 20, SP 10 20 4 1 3 4 1 5 2 9 1").splits[0]
        self.assertEqual(split.kept, (Rows(11, 17), Rows(19, 20)))
        self.assertEqual(split.count, 7)
        self.assertEqual(split.gaps(), [Rows(10, 11), Rows(17, 19)])
        self.assertEqual(split.pieces(2, 5), [Rows(13, 17), Rows(19, 20)])

    def test_pieces(self):
        expected = {
            (0, 5): [Rows(11, 14), Rows(16, 18)],
            (0, 2): [Rows(11, 13)],
            (2, 2): [Rows(13, 14), Rows(16, 17)],
            (3, 1): [Rows(16, 17)],
            (4, 9): [Rows(17, 18)],
            (5, 1): [],
            (1, 0): [],
        }
        for (first, count), pieces in expected.items():
            with self.subTest(first=first, count=count):
                self.assertEqual(self.split.pieces(first, count), pieces)

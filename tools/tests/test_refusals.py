import unittest
from pathlib import Path

from scanlib.places import REFUSALS
from scanlib.refusals import describe, read_table


class Table(unittest.TestCase):
    def test_every_number_has_a_meaning(self):
        self.assertEqual(sorted(read_table(REFUSALS)), [*range(1, 15), 17, 18, 19, 255])

    def test_in_words(self):
        self.assertEqual(describe(11), "REFUSED 11: the row count is not the segment's. State afterwards: as it was")
        self.assertIn("State afterwards: all zero", describe(13))

    def test_nine_is_no_longer_returned(self):
        self.assertIn("REFUSED 9: no longer returned", describe(9))

    def test_an_unknown_number(self):
        self.assertIn("REFUSED 99 (a number that REFUSALS.md does not have)", describe(99))

    def test_without_the_table(self):
        self.assertIn("REFUSED 9 (its meaning stands in nowhere.md", describe(9, Path("nowhere.md")))

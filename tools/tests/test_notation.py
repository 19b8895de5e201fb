import random
import unittest

from scanlib.notation import NotationError, parse, parse_lines, write
from scanlib.records import Raw, Record, from_bytes, to_bytes

C1 = "SC 1, SG 1 3, SG 2 2, CC 2, SP 0 5 1 0 5; ST ST ST, DL 0 2"
C1_BYTES = bytes.fromhex(
    "5343 01000000  5347 01000000 03000000  5347 02000000 02000000  4343 02000000"
    "5350 00000000 05000000 01000000 00000000 05000000  5354 5354 5354  444c 00000000 02000000"
)


def back_and_forth(data):
    return to_bytes(parse(write(from_bytes(data))))


class TextToBytes(unittest.TestCase):
    def test_c1(self):
        self.assertEqual(to_bytes(parse(C1)), C1_BYTES)

    def test_lines_comments_and_empty_lines(self):
        records = parse("# a core\n\nSC 1 # slots\nSG 7 4294967295")
        self.assertEqual(records, [Record("SC", (1,)), Record("SG", (7, 2**32 - 1))])

    def test_comments_of_both_kinds(self):
        records = parse("// a core, SG 9 0\nSC 1 // slots\nSC 2# x // y")
        self.assertEqual(records, [Record("SC", (1,)), Record("SC", (2,))])

    def test_every_line_end_and_no_other(self):
        self.assertEqual(parse("# one\rSC 1\r\n# two\nSC 2"), [Record("SC", (1,)), Record("SC", (2,))])
        for character in "\v\f\x1c\x1d\x1e\x85\u2028\u2029":
            self.assertEqual(parse(f"# a comment{character}SC 1"), [])

    def test_each_record_has_the_number_of_its_line(self):
        numbered = parse_lines("# one\rSC 1\r\n\nSG 1 4, SG 2 4 # four\nST ST")
        self.assertEqual([line for line, _ in numbered], [2, 4, 4, 5, 5])

    def test_zeros_before_a_number(self):
        self.assertEqual(parse("SC " + "0" * 5000 + "1"), [Record("SC", (1,))])

    def test_hex(self):
        self.assertEqual(parse("HEX 53 fF"), [Raw(b"S\xff")])


class BytesToText(unittest.TestCase):
    def test_c1(self):
        self.assertEqual(write(from_bytes(C1_BYTES), ", "), C1.replace(";", ",").replace("ST ST ST", "ST, ST, ST"))

    def test_the_rest_behind_what_is_no_record_is_hex(self):
        self.assertEqual(write(from_bytes(b"STXXST")), "ST\nHEX 58 58 53 54")

    def test_long_hex_goes_over_several_lines(self):
        self.assertEqual(write([Raw(bytes(17))]), "HEX" + " 00" * 16 + "\nHEX 00")

    def test_a_split_with_fewer_runs_than_it_names_is_no_record(self):
        cut = Record("SP", (0, 4, 2**29, 0, 4)).to_bytes()
        self.assertEqual(from_bytes(cut), [Raw(cut)])


class BackAndForth(unittest.TestCase):
    def test_every_front_part_of_c1(self):
        for length in range(len(C1_BYTES) + 1):
            self.assertEqual(back_and_forth(C1_BYTES[:length]), C1_BYTES[:length])

    def test_damaged_jobs_and_any_bytes(self):
        draw = random.Random(1)
        for _ in range(500):
            data = bytearray(C1_BYTES)
            for _ in range(draw.randrange(4)):
                data[draw.randrange(len(data))] = draw.randrange(256)
            noise = bytes(draw.randrange(256) for _ in range(draw.randrange(70)))
            for some in (bytes(data), noise, bytes(data) + noise):
                self.assertEqual(back_and_forth(some), some)

    def test_joins_of_one_child_stay(self):
        for joins in ("CC 1", "PK 1", "CC 1, PK 1", ", ".join(["CC 1"] * 24)):
            text = f"SC 1, SG 1 4, {joins}, SP 0 4 1 0 4"
            self.assertEqual(write(parse(text), ", "), text)
            self.assertEqual(write(from_bytes(to_bytes(parse(text))), ", "), text)

    def test_records_written_in_hex_become_records(self):
        text = "HEX 53 43, HEX 01 00 00 00\nSG 1 3"
        self.assertEqual(write(from_bytes(to_bytes(parse(text))), ", "), "SC 1, SG 1 3")


class Errors(unittest.TestCase):
    WRONG = {
        "SG 1": "SG segment rows; found 1 number",
        "ST 1": "ST; found 1 number",
        "SC": "SC slots; found 0 numbers",
        "SC -1": "a number from 0 to 4294967295; found -1",
        "SC 4294967296": "a number from 0 to 4294967295; found 4294967296",
        "SC " + "1" * 200: "a number from 0 to 4294967295; found " + "1" * 120 + "... (200 characters)",
        "SC ²": "a number from 0 to 4294967295; found ²",
        "sc 1": "one of the marks SC, SG, CC, PK, SP, ST, DL or HEX; found sc",
        "SP 0 5": "SP start end runs then start length for each run; found 2 numbers",
        "SP 0 5 1 0": "a start and a length for 1 run; found 1 number after the count",
        "SP 0 5 0 0 5": "a start and a length for 0 runs; found 2 numbers after the count",
        "HEX 5": "HEX and bytes of two hexadecimal digits each; found 5",
        "HEX": "HEX and at least one byte",
    }

    def test_each_names_its_line_and_what_was_expected(self):
        for line, expected in self.WRONG.items():
            with self.subTest(line), self.assertRaises(NotationError) as caught:
                parse(f"SC 1\n# two\n  {line}  # three")
            message = str(caught.exception)
            self.assertTrue(message.startswith(f"line 3: {line[:120]}"), message)
            self.assertIn("expected", message)
            self.assertIn(expected, message)

    def test_a_message_is_short_and_has_no_control_characters(self):
        with self.assertRaises(NotationError) as caught:
            parse("SC \x1b[2J\t" + "9" * 5000)
        message = str(caught.exception)
        self.assertLess(len(message), 500)
        self.assertTrue(message.replace("\n", "").isprintable())

import subprocess
import sys
import unittest

from .support import EXAMPLES, PROGRAM, Ran, WithFolder, needs_turns

SCAN = EXAMPLES.parent / "scan.py"


def started(*arguments, given=b""):
    return subprocess.run([sys.executable, SCAN, *arguments], input=given, capture_output=True, timeout=30)


class EncodeAndDecode(WithFolder):
    def test_through_pipes(self):
        data = started("encode", EXAMPLES / "two-columns.txt").stdout
        text = started("decode", "--commas", given=data).stdout
        self.assertEqual(text, b"SC 1, SG 1 4, SG 2 1, SG 3 3, CC 2, PK 2, SP 0 4 1 0 4\n")
        self.assertEqual(started("encode", given=text).stdout, data)

    def test_to_a_file(self):
        target = self.folder / "job"
        self.assertEqual(Ran("encode", self.file("text", "HEX 00 ff, ST"), "-o", target).status, 0)
        self.assertEqual(target.read_bytes(), b"\x00\xffST")
        self.assertEqual(Ran("decode", target).out, "HEX 00 ff 53 54\n")

    def test_errors(self):
        wrong = self.file("wrong", "SC 1\nSG 1\n")
        ran = Ran("encode", wrong, "-o", self.folder / "job")
        self.assertEqual((ran.status, ran.out), (2, ""))
        self.assertEqual(ran.err, "scan.py: line 2: SG 1\n  expected SG segment rows; found 1 number\n")
        self.assertFalse((self.folder / "job").exists())
        self.assertIn("cannot be read", Ran("decode", self.folder / "none").err)
        self.assertIn("is not text", Ran("encode", self.file("bytes", b"SC\1\0\0\0")).err)
        self.assertIn("is not text", Ran("encode", self.file("bytes", b"\xff")).err)
        self.assertIn("cannot be written", Ran("encode", EXAMPLES / "c1.txt", "-o", self.folder).err)


class Help(unittest.TestCase):
    def test_examples_in_the_help_stand(self):
        text = help_text() + help_text("run")
        named = {word for word in text.split() if word.startswith("tools/")}
        self.assertLess({"tools/scan.py", "tools/examples/c1.txt"}, named)
        for name in named:
            self.assertTrue((SCAN.parents[1] / name).is_file(), name)


def help_text(*command):
    return started(*command, "--help").stdout.decode()


class Run(WithFolder):
    def test_asking_needs_standard_input(self):
        ran = Ran("run", "-", "--order", "ask")
        self.assertEqual(ran.status, 2)
        self.assertIn("name the job's file", ran.err)

    @needs_turns
    def test_in_a_process_of_its_own(self):
        ran = started("run", EXAMPLES / "c1.txt", "--transcript", "--turns", PROGRAM)
        self.assertEqual((ran.returncode, ran.stdout.splitlines()[-1]), (0, b"done"))

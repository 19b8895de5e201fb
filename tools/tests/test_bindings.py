"""What callers in C and Rust take: the header, the program in bindings/README.md, the crate packed or copied."""

import os
import re
import shutil
import subprocess
import unittest

from scanlib.notation import parse
from scanlib.places import ROOT
from scanlib.records import to_bytes

from .support import WithFolder

BINDINGS = ROOT / "bindings"
LIBRARY = ROOT / "target" / "staticlib"
README = (BINDINGS / "README.md").read_text(encoding="utf-8")
STRICT = ("-Wall", "-Wextra", "-Werror", "-pedantic", "-I", BINDINGS / "c")
IGNORED = shutil.ignore_patterns("target")

needs_library = unittest.skipUnless(
    (LIBRARY / "libritsghule.a").is_file(), f"libritsghule.a is not built: `tools/build library` in {ROOT}"
)

# Without room for the turn a step does nothing, nor does the delivery of a read in flight; with room its rows come out.
NO_ROOM = """\
#include <string.h>
#include "ritsghule.h"

static const uint8_t job[] = {%s};
static uint8_t state[65536], before[65536];

int main(void) {
    uint32_t turn[RITSGHULE_TURN_LEN], run;
    size_t len = ritsghule_state_len(), room = RITSGHULE_TURN_LEN;
    if (ritsghule_open(job, sizeof job, state, len, &run) != 0 || ritsghule_step(state, len, turn, room) != 0) return 1;
    memcpy(before, state, len);
    if (ritsghule_step(state, len, turn, room - 1) != 255) return 2;
    if (ritsghule_deliver(state, len, 0, 2, turn, room - 1) != 255) return 3;
    if (turn[0] != RITSGHULE_READ || memcmp(state, before, len) != 0) return 4;
    return ritsghule_deliver(state, len, 0, 2, turn, room) != 0 || turn[0] != RITSGHULE_OUTPUT ? 5 : 0;
}
"""

# Opens the job on standard input: the answer, and what then stands in the place for a run.
OPENING = """\
#include <stdio.h>
#include "ritsghule.h"

static uint8_t job[4096], state[65536];

int main(void) {
    uint32_t run = 4242;
    size_t job_len = fread(job, 1, sizeof job, stdin);
    uint8_t answer = ritsghule_open(job, job_len, state, ritsghule_state_len(), &run);
    return printf("%u %u\\n", (unsigned)answer, (unsigned)run) < 0;
}
"""


def needs(program):
    return unittest.skipUnless(shutil.which(program), f"there is no {program}")


class Callers(WithFolder):
    def run_in_folder(self, *command, status=0, **variables):
        """What a command printed, in the test's folder and without the caller's own settings."""
        own = ("CARGO_TARGET_DIR", "CARGO_BUILD_", "RITSGHULE_")
        settings = {name: value for name, value in os.environ.items() if not name.startswith(own)}
        run = dict(cwd=self.folder, env={**settings, **variables}, capture_output=True, text=True, timeout=300)
        ran = subprocess.run([str(word) for word in command], **run)
        self.assertEqual(ran.returncode, status, ran.stdout + ran.stderr)
        return ran


class C(Callers):
    PROGRAM = re.search(r"```c\n(.*?)```", README, re.DOTALL)
    COMMAND, PRINTED = re.findall(r"(?:^    .+\n)+", README[PROGRAM.end() : README.index("## Rust")], re.MULTILINE)

    @needs("cc")
    def test_the_header_alone(self):
        twice = self.file("twice.c", '#include "ritsghule.h"\n' * 2)
        for standard in ("c99", "c11"):
            self.run_in_folder("cc", f"-std={standard}", *STRICT, "-c", twice)

    @needs_library
    @needs("g++")
    def test_the_header_in_cpp(self):
        calls = self.file("calls.cpp", '#include "ritsghule.h"\nint main() { return ritsghule_state_len() == 0; }\n')
        self.run_in_folder("g++", "-std=c++11", *STRICT, calls, "-L", LIBRARY, "-l", "ritsghule", "-o", "calls")
        self.run_in_folder("./calls")

    @needs_library
    @needs("cc")
    def test_no_room_for_the_turn(self):
        job = to_bytes(parse("SC 1, SG 7 2, SP 0 2 1 0 2"))
        calls = self.file("calls.c", NO_ROOM % ", ".join(map(str, job)))
        self.run_in_folder("cc", "-std=c99", *STRICT, calls, "-L", LIBRARY, "-l", "ritsghule", "-o", "calls")
        self.run_in_folder("./calls")

    @needs_library
    @needs("cc")
    def test_the_place_for_a_run(self):
        calls = self.file("calls.c", OPENING)
        self.run_in_folder("cc", "-std=c99", *STRICT, calls, "-L", LIBRARY, "-l", "ritsghule", "-o", "calls")
        splits = {"0 4 2 0 2 2 2": "0 4242", "0 5 1 0 0": "8 4242", "0 4 3 0 1 1 1 2 0": "17 2"}
        for split, printed in {**splits, "0 4 2 0 2 1 9": "18 1", "0 4 1 4294967295 2": "19 0"}.items():
            with self.subTest(split):
                self.file("job", to_bytes(parse(f"SC 1, SG 1 4, SP {split}")))
                self.assertEqual(self.run_in_folder("sh", "-c", "./calls < job").stdout, f"{printed}\n")

    @needs("cc")
    def test_the_program_in_the_readme_without_warnings(self):
        self.run_in_folder("cc", "-std=c99", *STRICT, "-c", self.file("first.c", self.PROGRAM[1]))

    @needs_library
    @needs("cc")
    def test_the_program_in_the_readme_prints_what_is_said(self):
        self.file("first.c", self.PROGRAM[1])
        for name in ("bindings", "target"):
            (self.folder / name).symlink_to(ROOT / name)
        printed = self.run_in_folder("sh", "-c", self.COMMAND).stdout
        self.assertEqual(printed.splitlines(), [line.strip() for line in self.PRINTED.splitlines()])


class Rust(Callers):
    def test_what_the_crate_has_a_copy_of(self):
        for original in (ROOT / "docs" / "REFUSALS.md", ROOT / "NOTICE"):
            self.assertEqual((BINDINGS / "rust" / original.name).read_bytes(), original.read_bytes())

    @needs_library
    @needs("cargo")
    def test_packed(self):
        places = ("--manifest-path", BINDINGS / "rust" / "Cargo.toml", "--target-dir", "target")
        self.run_in_folder("cargo", "package", "--offline", "--allow-dirty", *places, RITSGHULE_LIB_DIR=str(LIBRARY))
        packed = {path.name for path in self.folder.glob("target/package/ritsghule-*/*")}
        self.assertLess({"README.md", "REFUSALS.md", "NOTICE", "build.rs", "src", "examples", "tests"}, packed)

    @needs_library
    @needs("cargo")
    def test_copied(self):
        """Without the library it is said what to do; with it the crate builds, and again where the folder moves to."""
        run = ("cargo", "run", "--quiet", "--offline", "--example", "from_files", "--manifest-path")
        shutil.copytree(BINDINGS / "rust", self.folder / "here" / "bindings" / "rust", ignore=IGNORED)
        said = self.run_in_folder(*run, "here/bindings/rust/Cargo.toml", status=101).stderr
        self.assertRegex(said, r"libritsghule.a is missing.\n.*tools/build library.*\n.*RITSGHULE_LIB_DIR")
        shutil.copytree(LIBRARY, self.folder / "here" / "target" / "staticlib")
        here = self.run_in_folder(*run, "here/bindings/rust/Cargo.toml").stdout
        self.assertIn("between rows 2 and 3   GAP, bag 32 MISSING", here)
        (self.folder / "here").rename(self.folder / "there")
        self.assertEqual(self.run_in_folder(*run, "there/bindings/rust/Cargo.toml").stdout, here)

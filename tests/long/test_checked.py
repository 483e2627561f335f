"""Runs the built library under `valgrind`, which sees each byte that it reads and writes, and each that it does not give back:
called from C, from the package for Python and from that for Rust, and on the inputs of the fuzzers.

It takes some minutes; what is missing on the machine is passed over.
"""
import os
import random
import shutil
import sys
import tempfile
import unittest

sys.path.insert(0, os.path.dirname(os.path.dirname(os.path.abspath(__file__))))
from common import ROOT, Case, built, ended, environment, shown
from test_clib import LIB, SHARED
from test_fuzz import CORPUS, PRINT_CORPUS, compiled

SECONDS, FAULT = 3600, 99
CHECKED = ["valgrind", "--quiet", f"--error-exitcode={FAULT}"]
LEAKS = ["--leak-check=full", "--errors-for-leak-kinds=definite,indirect,possible"]
# What the tests of Rust keep to their end is found by pointers into its midst.
LOST = ["--leak-check=full", "--show-leak-kinds=definite", "--errors-for-leak-kinds=definite"]
# How many inputs of each corpus, and how many of them in a process.
INPUTS, PART = 600, 100
# Prints tables of rows, of a text and of cells with errors.
PRINTS = """
import basinmug, random, sys
seeded = random.Random(1)
cells = ["", "a", "12", "two words", "two\\nlines", "\\x1b[31mred\\x1b[0m", "\\x1b]0;t\\x07", "\\u8868", "x" * 50, None, 3.5]
for at in range(60):
    rows = [[seeded.choice(cells) for _ in range(3)] for _ in range(seeded.randrange(6))]
    asked = {"width": seeded.choice((None, 0, 7, 20, 60)), "expanded": at % 5 == 0, "color": {0: "bold"}, "max_rows": seeded.choice((None, 2))}
    basinmug.table(rows, headers=["a", "b", "c"], **asked)
    basinmug.csv("a,b\\n1,2\\n", width=asked["width"])
for wrong in ('a\\n"b', b"a\\n\\xff\\n"):
    try:
        basinmug.csv(wrong)
    except basinmug.TableError:
        pass
print(basinmug.width("\\u8868"), basinmug.strip("\\x1b[31ma"))
"""


@unittest.skipUnless(shutil.which("valgrind"), "no valgrind: the library was not run under it")
class Checked(Case):
    @classmethod
    def setUpClass(cls):
        built("lib")

    def setUp(self):
        folder = tempfile.TemporaryDirectory(prefix="checked-")
        self.addCleanup(folder.cleanup)
        self.folder = folder.name

    def assertWell(self, words, **how):
        ran = ended(words, timeout=SECONDS, **how)
        self.assertEqual(ran.returncode, 0, shown(ran.stderr, 2000))
        return ran

    def test_calls_from_c(self):
        words = ["cc", "-std=c11", "-g", f"-I{ROOT}/include", "-o", f"{self.folder}/calls", f"{ROOT}/tests/clib/calls.c", "-pthread", f"{LIB}/libbasinmug.a", "-Wl,--wrap=malloc,--wrap=realloc"]
        self.assertWell(words)
        self.assertWell([*CHECKED, *LEAKS, f"{self.folder}/calls"])

    def test_inputs_of_the_fuzzers(self):
        for source, corpus in (("table.c", CORPUS), ("print.c", PRINT_CORPUS)):
            checked, ran = compiled("cc", [], [source, "replay.c"], self.folder)
            self.assertEqual(ran.returncode, 0, shown(ran.stderr))
            names = random.Random(1).sample(sorted(os.listdir(corpus)), min(INPUTS, len(os.listdir(corpus))))
            for at in range(0, len(names), PART):
                with self.subTest(f"{source}, {names[at]} and those after it"):
                    self.assertWell([*CHECKED, *LEAKS, checked, *(f"{corpus}/{name}" for name in names[at : at + PART])])

    def test_the_package_for_python(self):
        """Python's own reads of what nobody wrote are none of the library's."""
        env = environment(PYTHONMALLOC="malloc", PYTHONPATH=f"{ROOT}/bindings/python", BASINMUG_LIBRARY=SHARED, PYTHONDONTWRITEBYTECODE="1")
        ran = ended(["valgrind", "--num-callers=40", sys.executable, "-c", PRINTS], env=env, timeout=SECONDS)
        self.assertEqual((ran.returncode, ran.stdout), (0, b"2 a\n"), shown(ran.stderr, 2000))
        self.assertIn(b"ERROR SUMMARY", ran.stderr)
        self.assertNotIn(b"libbasinmug", ran.stderr)

    @unittest.skipUnless(shutil.which("cargo"), "no cargo: the package for Rust was not run under valgrind")
    def test_the_package_for_rust(self):
        package = f"{self.folder}/rust"
        shutil.copytree(f"{ROOT}/bindings/rust", package, ignore=shutil.ignore_patterns("target", "Cargo.lock"))
        runner = {"CARGO_TARGET_X86_64_UNKNOWN_LINUX_GNU_RUNNER": " ".join([*CHECKED, *LOST])}
        env = environment(BASINMUG_LIB_DIR=LIB, CARGO_TARGET_DIR=f"{self.folder}/target", **runner)
        self.assertWell(["cargo", "test", "--offline", "--quiet", "--tests"], cwd=package, env=env)


if __name__ == "__main__":
    unittest.main()

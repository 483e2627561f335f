"""Runs the commands of pages that prove or measure something, as they are on the page, over what `make build` has proved.

What a page leaves to the reader is filled in. MODEL in the environment is the folder of the reference model; where it is not set,
what needs it is passed over. What works on a crate, or may write a source file, runs in a copy: in a small crate of its own.
It takes hours of processor time, so it is outside `make test`: `make long` runs it. tests/test_words.py looks up that each
command of a page is here, or is run by another test.
"""
import os
import re
import shutil
import sys
import tempfile
import unittest

sys.path.insert(0, os.path.dirname(os.path.dirname(os.path.abspath(__file__))))
from common import ROOT, Case, ended, read

SECONDS = 6 * 3600
# What is in place of the words that a page leaves to the reader: a crate with few mutants and one of them, or a function of
# the small crate.
FILLED = {"CRATE/NAME": "bounded_output/memory_grows", "CRATE": "bounded_output", "NAME": "echo", "MODEL": os.environ.get("MODEL"), "FOLDER": os.environ.get("MODEL")}
# In this repository.
HERE = (
    "make build", "make lib", "make quick", "make release", "make trusted", "tools/trusted columns", "bench/costs/proof",
    "make attack ATTACK='CRATE'", "make attack ATTACK='CRATE/NAME'", "make attack ATTACK=program_options/it_is_narrowed_by_default",
    "make attack ATTACK=columns_run/the_width_is_forgotten", "make attack ATTACK=papergrid_picture/rows_and_columns_cross_the_wrong_way",
    "make bench", "make bench BENCH='--kinds wide'", "make bench BENCH='--kinds wide,long,cjk'",
    "bench/costs/run --table", "bench/costs/run --others", "bench/costs/run --table --beside 'column -t'", "bench/costs/run --kinds narrow,colour --rows 10000 --beside 'column -t'",
)
# In this repository too, with the reference model.
COMPARED = ("bench/compare MODEL", "bench/compare MODEL roads lists --cases 400 --seed 7", "bench/compared/lists.py MODEL --show 10", "make soak MODEL=FOLDER CASES=1000000")
# In a copy.
COPIED = ("make api",)
# In a copy of the library `tabled`: in the folder of the small crate, and above it.
IN_CRATE = ("rt try", "rt try --test", "rt check --only NAME", "rt check", "rt run", "rt fmt", "rt plant")
ABOVE_IT = ("tools/build mine",)
COMMANDS = (*HERE, *COMPARED, *COPIED, *IN_CRATE, *ABOVE_IT)


def filled(line):
    """A command with what is in place of the reader's own words; the name of a variable stays."""
    return re.sub(rf"\b({'|'.join(FILLED)})\b(?!=)", lambda it: FILLED[it[0]], line)


def copied(folder, *left_out):
    """Copies the repository into a folder, without what these patterns name; gives its path."""
    return shutil.copytree(ROOT, f"{folder}/copy", ignore=shutil.ignore_patterns(".git", "lib", "dist", "data", "target", "__pycache__", *left_out))


def block_of_libraries():
    """The commands of a page that copy a library, and what it says of the line of one's own crate."""
    text = read("docs/ARCHITECTURE.md").decode().partition("To use a library")[2]
    return re.sub("^    ", "", re.search(r"((?:^    .*\n)+)", text, re.M)[1], flags=re.M), re.search("such as `(mine: .*?)`", text)[1]


class Commands(Case):
    def assertRuns(self, lines, folder):
        """Each command ends well and prints something; those that try mutants are told that all were refused."""
        for line in lines:
            with self.subTest(line):
                ran = ended(["sh", "-c", filled(line)], cwd=folder, timeout=SECONDS)
                said = (ran.stdout + ran.stderr).decode(errors="replace")
                self.assertEqual(ran.returncode, 0, said[-2000:])
                if "ATTACK=" in line:
                    self.assertRegex(said.splitlines()[-1], r"^[1-9]\d* refused, 0 not$")

    def test_those_of_this_repository(self):
        self.assertRuns(HERE, ROOT)

    @unittest.skipUnless(os.environ.get("MODEL"), "no MODEL: nothing was compared with it")
    def test_those_with_the_reference_model(self):
        self.assertRuns(COMPARED, ROOT)

    def test_those_that_may_write_a_source_file(self):
        """They change nothing, since the gate has passed."""
        with tempfile.TemporaryDirectory(prefix="commands-") as folder:
            copy = copied(folder, "out")
            before = {name: read(f"{copy}/tests/api/{name}") for name in os.listdir(f"{copy}/tests/api")}
            self.assertRuns(COPIED, copy)
            for name, text in before.items():
                with self.subTest(name):
                    self.assertSame(read(f"{copy}/tests/api/{name}"), text)

    def test_those_of_a_crate_of_ones_own(self):
        """It is the one that `rt new` makes, with a test; over the libraries that are built."""
        block, line = block_of_libraries()
        with tempfile.TemporaryDirectory(prefix="commands-") as folder:
            self.assertRuns([block], copied(folder))
            self.assertRuns(["git init -q", "rt new crates/mine start"], f"{folder}/mine")
            with open(f"{folder}/mine/crates.txt", "a", encoding="utf-8") as it:
                it.write(f"{line} check\n")
            with open(f"{folder}/mine/crates/mine/src/main.rt", "a", encoding="utf-8") as it:
                it.write("\n#[test]\nfn three_is_echoed() {\n    check::expect(echo(3) == 3);\n}\n")
            self.assertRuns(IN_CRATE, f"{folder}/mine/crates/mine")
            self.assertRuns(ABOVE_IT, f"{folder}/mine")

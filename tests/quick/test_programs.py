"""Runs programs on the input that is beside their sources, by tools/try, with no proof: all at a time.

The program of `tabled_size_priority_tests` is left to `rt ci`: it takes more than the minute that a run without a proof has.
"""
import concurrent.futures
import os
import sys

sys.path.insert(0, os.path.dirname(os.path.dirname(os.path.abspath(__file__))))
from common import ROOT, Case, ended, environment, read

PROGRAMS = ("columns", "basinmug", "examples")
SECONDS = 1200  # on a machine that does much else


def given(crate, name):
    """What is in a file beside the sources of a program; nothing where there is none."""
    path = f"crates/{crate}/{name}"
    return read(path) if os.path.exists(f"{ROOT}/{path}") else b""


def tried(crate):
    """How the program ends on its input."""
    words = given(crate, "args").decode().split("\n")[:-1]
    return ended([f"{ROOT}/tools/try", *words], given(crate, "stdin"), env=environment(PROGRAM=crate), timeout=SECONDS)


class Programs(Case):
    def test_each_prints_what_it_must(self):
        with concurrent.futures.ThreadPoolExecutor() as beside:
            running = {crate: beside.submit(tried, crate) for crate in PROGRAMS}
        for crate, run in running.items():
            with self.subTest(crate):
                ran = run.result()
                self.assertEqual(ran.returncode, int(given(crate, "status") or 0), ran.stderr.decode(errors="replace"))
                self.assertSame(ran.stdout, given(crate, "stdout"))

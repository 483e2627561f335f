"""Looks for further inputs of fuzz/table.c and fuzz/print.c by the libFuzzer of `clang`, each for FUZZ_SECONDS (600), in
FUZZ_JOBS processes.

Where `tests/fuzz/covered` has made a library that counts its branches, it is that which is tested, and the inputs are
guided by them. An input that breaks a promise is at the top of the repository then. With FUZZ_KEEP=1 the fewest inputs that
reach as much as all that were found take the place of tests/corpus and tests/corpus-print.
"""
import os
import shutil
import subprocess
import sys
import tempfile

sys.path.insert(0, os.path.dirname(os.path.dirname(os.path.abspath(__file__))))
from common import ROOT, Case, shown
from test_fuzz import CORPUS, LIBRARY, PRINT_CORPUS, compiled

SECONDS = int(os.environ.get("FUZZ_SECONDS", "600"))
JOBS = int(os.environ.get("FUZZ_JOBS", os.cpu_count()))
# Bytes of the longest input that the fuzzer makes.
LONGEST = 512
COVERED = f"{ROOT}/lib/covered/libbasinmug.a"


class Fuzzing(Case):
    def test_further_inputs_of_tables_keep_the_promises(self):
        self.assertKept("table.c", CORPUS)

    def test_further_inputs_of_prints_keep_the_promises(self):
        self.assertKept("print.c", PRINT_CORPUS)

    def assertKept(self, source, corpus):
        """No input that is found in the time breaks a promise."""
        with tempfile.TemporaryDirectory(prefix="fuzz-") as folder:
            library = COVERED if os.path.exists(COVERED) else LIBRARY
            program, ran = compiled("clang", ["-fsanitize=fuzzer,address,undefined"], [source], folder, library)
            self.assertEqual(ran.returncode, 0, f"`clang` has no libFuzzer here, or `make lib` has not made the library: {shown(ran.stderr)}")
            found, kept = f"{folder}/found", f"{folder}/kept"
            shutil.copytree(corpus, found)
            words = [f"-max_len={LONGEST}", f"-dict={ROOT}/tests/fuzz/dictionary", f"-max_total_time={SECONDS}", f"-artifact_prefix={ROOT}/", f"-fork={JOBS}", "-use_value_profile=1"]
            ran = subprocess.run([program, *words, found], cwd=folder)
            self.assertEqual(ran.returncode, 0, f"the input is in {ROOT}")
            if os.environ.get("FUZZ_KEEP"):
                os.mkdir(kept)
                subprocess.run([program, "-merge=1", f"-max_len={LONGEST}", kept, found], cwd=folder, check=True)
                shutil.rmtree(corpus)
                shutil.copytree(kept, corpus)

"""Prints CASES random cases (a million) by the built library, from number SEED (0) on, in JOBS processes, and holds what it
prints to tests/reference.py and to the promises of the first page. A million take half an hour on one processor.

TEST_LIBRARY may name another shared object.
"""
import concurrent.futures
import os
import sys
import unittest

sys.path.insert(0, os.path.dirname(os.path.dirname(os.path.abspath(__file__))))
from common import ROOT, Case, built
from random_cases import Case as RandomCase
from random_cases import Library, difference

COUNT, FIRST = int(os.environ.get("CASES", "1000000")), int(os.environ.get("SEED", "0"))
JOBS = int(os.environ.get("JOBS", os.cpu_count()))
# Cases of one task, and how many differences are told.
PART, MOST = 1000, 20


def differences(path, first, count):
    """What is different of so many cases from one on."""
    library = Library(path)
    return [it for it in (difference(library, RandomCase(number)) for number in range(first, first + count)) if it]


class Cases(Case):
    def test_the_library_prints_what_the_reference_does(self):
        path = os.environ.get("TEST_LIBRARY") or built("lib") and f"{ROOT}/lib/libbasinmug.so.0"
        found = []
        with concurrent.futures.ProcessPoolExecutor(JOBS) as parts:
            tasks = [parts.submit(differences, path, first, min(PART, FIRST + COUNT - first)) for first in range(FIRST, FIRST + COUNT, PART)]
            for task in concurrent.futures.as_completed(tasks):
                found += task.result()
        self.assertEqual(len(found), 0, "\n".join(sorted(found, key=len)[:MOST]))


if __name__ == "__main__":
    unittest.main()

"""Compares what is public in the crates that others use, and in the header for C, with the files tests/api/NAME.txt.

tests/api/surface.py says what is in them, and `make api` writes them again.
"""
import difflib
import os
import sys
import unittest

sys.path.insert(0, os.path.join(os.path.dirname(os.path.abspath(__file__)), "api"))
from surface import kept_in, surfaces


class Surface(unittest.TestCase):
    maxDiff = 0

    def test_what_is_public_is_what_was(self):
        for name, lines in surfaces():
            with self.subTest(name), open(kept_in(name), encoding="utf-8") as it:
                kept = it.read().splitlines()
                differ = difflib.unified_diff(kept, lines, f"{name}.txt", "the source files", "", "", 0, "")
                self.assertEqual(kept, lines, "\n".join(differ))

"""Says which source files `rt fmt` would lay out again, and leaves them as they are. `rt ci` refuses them too."""
import glob
import os
import sys
import unittest

sys.path.insert(0, os.path.dirname(os.path.dirname(os.path.abspath(__file__))))
from common import ROOT, ended, kit

PARTS = ("src", "specs", "proofs")


class Layout(unittest.TestCase):
    def test_each_crate_is_in_the_layout(self):
        formatter = [f"{kit()}/bin/rattle", "fmt", "--check"]
        for crate in sorted(os.listdir(f"{ROOT}/crates")):
            with self.subTest(crate):
                files = [it for part in PARTS for it in glob.glob(f"crates/{crate}/{part}/**/*.*", root_dir=ROOT, recursive=True)]
                ran = ended([*formatter, *(it for it in files if it.endswith((".rt", ".antt")))], cwd=ROOT)
                self.assertEqual(ran.returncode, 0, f"`make fmt` lays this out: {ran.stderr.decode()}")

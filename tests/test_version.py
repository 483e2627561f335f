"""The version is in one file, VERSION. Scripts read it there; all others that name one are compared with it here."""
import re
import unittest

from common import read

VERSION = read("VERSION").decode().removesuffix("\n")
# As the header and the library have it: 10000 times the first number, 100 times the second, and the third.
NUMBER = "".join(f"{int(it):02}" for it in VERSION.split(".")).lstrip("0")

# Each file that names the version, what is before it there, and how it is written.
NAMED = [
    ("CHANGELOG.md", "^## ", VERSION),
    ("bindings/python/basinmug/_library.py", '^VERSION = "', VERSION),
    ("bindings/rust/Cargo.toml", '^version = "', VERSION),
    ("crates/columns_c/src/lib.rt", "^    ensures { result ≡ ", NUMBER),
    ("crates/command_line/src/basinmug/command.rt", '^const VERSION: &str = "', VERSION),
    ("crates/command_line/src/columns/command.rt", '^const VERSION: &str = "', VERSION),
    ("docs/basinmug.1", '^\\.TH BASINMUG 1 "" "basinmug ', VERSION),
    ("docs/columns.1", '^\\.TH COLUMNS 1 "" "columns ', VERSION),
    ("include/basinmug.h", "^#define BASINMUG_VERSION ", NUMBER),
    ("include/basinmug.pc.in", "^Version: ", "@VERSION@"),
]


class Version(unittest.TestCase):
    def test_the_file_has_three_numbers(self):
        self.assertRegex(read("VERSION").decode(), r"\A(0|[1-9]\d?)(\.(0|[1-9]\d?)){2}\n\Z")

    def test_each_file_names_it(self):
        for path, before, wanted in NAMED:
            with self.subTest(path):
                found = re.search(f"{before}([\\w.@]+)", read(path).decode(), re.M)
                self.assertEqual(found and found[1], wanted)

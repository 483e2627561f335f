"""What `basinmug --expanded` holds: besides its input and its cells, the names and the lines of one record.

Each input has much output for little input: lines that are longer than the record above them, or many more lines than cells. At
twice the count a run holds at most twice as much.
"""
from common import Peaks


def long_value(count):
    """So many records, of which one has a text of so many characters: once a rule of so many hyphens for each."""
    return b"a\n" + b"x\n" * count + b"y" * count + b"\n"


def long_name(count):
    """A name of so many characters, and so many records."""
    return b"n" * count + b"\n" + b"x\n" * count


def many_lines(count):
    """So many records, and a text of so many lines: once a rule as wide as all of them."""
    return b"a\n" + b"x\n" * count + b'"' + b"y\n" * count + b'"\n'


def ragged(count):
    """A header of so many names, and so many records of one text."""
    return b"," * (count - 1) + b"\n" + b"x\n" * count


CASES = (
    ("a long text", long_value, "", 10000),
    ("a long name", long_name, "", 2000),
    ("a long name in a width", long_name, "--width 80", 10000),
    ("many lines", many_lines, "", 10000),
    ("many lines in a width", many_lines, "--width 20 --truncate", 10000),
    ("ragged", ragged, "", 1000),
    ("one of many", ragged, "--max-rows 1", 10000),
)


class HeldRecords(Peaks):
    """Records one below the other that are written as they are made."""

    name, limit = "basinmug", 96 << 20

    def test_memory_goes_with_the_input(self):
        for name, text, words, count in CASES:
            with self.subTest(name):
                self.assertGrowsEvenly(text, count, "--delimiter=,", "--expanded", *words.split())

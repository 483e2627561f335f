"""What programs hold of records of which most cells lack, or most are not shown: no more than goes with what is there or shown.

One record of n cells and n records of one cell make a table of n columns and n + 1 rows, of which most cells lack. `columns`
writes it as it is made, so what a run holds must not grow with it. `basinmug --max-rows` and `--tail` read all records, and
hold those that are shown, the others only one by one.
"""
from common import Peaks

COUNT = 8000
CELL, RECORD, COLUMN = 64, 64, 64  # bytes for each cell that is there, each record, and each column
WORDS = ("--width 80 --priority max", "--width 80 --keep-words", "--width 80 --truncate --style modern")

# How many records a text has, and the arguments by which ten of them, at most, are shown.
MANY = 20_000
SHOWN = (
    "--max-rows 5", "--tail 5", "--max-rows 5 --tail 5", "--max-rows 5 --width 40", "--tail 5 --no-header",
    "--expanded --max-rows 5", "--expanded --tail 5", "--expanded --max-rows 5 --tail 5",
)
FIELD = 128  # bytes for each field of a long record, while it is read


def ragged(count, between=b"\t"):
    """One record of so many cells, and so many records of one cell."""
    return between.join([b"a"] * count) + b"\n" + b"b\n" * count


def short(count):
    """A header, and so many records of two cells, without a quote."""
    return b"a,b\n" + b"1,2\n" * count


def quoted(count):
    """The same with quotes."""
    return b"a,b\n" + b'1,"2"\n' * count


def long_between(count):
    """A header, ten records of one cell, one record of so many, and ten of one."""
    return b"a\n" + b"b\n" * 10 + b",".join([b"c"] * count) + b"\n" + b"d\n" * 10


class RaggedRecords(Peaks):
    """Records of which most cells lack, in a requested width."""

    name, limit = "columns", 96 << 20  # 8,000 cells took 2,943 MB where short records were filled

    def test_memory_goes_with_the_cells_that_are_there(self):
        for words in WORDS:
            with self.subTest(words):
                many = self.assertGrowsEvenly(ragged, COUNT, *words.split())
                n = 2 * COUNT
                kept = CELL * 2 * n + RECORD * (n + 1) + COLUMN * n
                # The input is held too, with space to grow.
                self.assertLessEqual(many, kept + 3 * len(ragged(n)))


class RecordsNotShown(Peaks):
    """Records of which most are not shown."""

    name, limit = "basinmug", 96 << 20

    def test_memory_goes_with_the_bytes_of_the_input(self):
        for text in (short, quoted):
            for words in SHOWN:
                with self.subTest(text=text.__name__, words=words):
                    many = self.assertGrowsEvenly(text, MANY, "--delimiter=,", *words.split())
                    self.assertLessEqual(many, 3 * len(text(2 * MANY)) + self.PAGES)

    def test_short_records_are_not_filled_to_one_that_is_not_shown(self):
        for words in SHOWN:
            with self.subTest(words):
                many = self.assertGrowsEvenly(long_between, MANY, "--delimiter=,", *words.split())
                self.assertLessEqual(many, 3 * len(long_between(2 * MANY)) + FIELD * 2 * MANY + self.PAGES)

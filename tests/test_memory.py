"""Refuses each request of the built programs for memory in turn, and looks at how they end.

For each input, run N has the N-th request refused, for N = 1, 2, .. until a run meets no refusal. A refused run ends
with status 1, the one line `columns: out of memory` or `basinmug: out of memory` on standard error, and the prefix of
the table, however much of it, on standard output. The last run writes the whole table.

The tests of libraries that take memory are run likewise: tests/memory/tests names them. A refused run ends by the error
that the refusal was, which a test only passes on; a wrong result, a part after a refusal, or a setting that a refused
call changed, ends it by a failed assertion. The last run passes.
"""
import os
import random
import subprocess
import tempfile

from common import ROOT, Case, built, ended, environment, program, read, shown, table

MOST = 200_000  # refusals of one input: more than that is no end
# What a run of a program says and returns where a request was refused, and of a test.
SAID, STATUS = "{}: out of memory\n", 1
TEST_SAID, TEST_STATUS = "{}\nthe test failed: its result gives status 1\n", 101

# Arguments, an input, and the table that they request, written by hand; the help is no table.
ASKED = [
    ("--color 1=red", "a\tb\n", "+---+---+\n| a | \x1b[31mb\x1b[39m |\n+---+---+\n"),
    ("--style ascii", "\x1b[1ma\nb\x1b[0m\n", "+---+\n| \x1b[1ma\x1b[22m |\n+---+\n| \x1b[1mb\x1b[0m |\n+---+\n"),
    ("--width 6", "\x1b[31m123456\x1b[0m\n", "+----+\n| \x1b[31m12\x1b[39m |\n| \x1b[31m34\x1b[39m |\n| \x1b[31m56\x1b[0m |\n+----+\n"),
    ("--width 7 --truncate", "\x1b[31m😳😳\x1b[39m\n", "+-----+\n| \x1b[31m😳\x1b[39m\ufffd |\n+-----+\n"),
    ("--width 8 --keep-words --priority max", "111 234 1\n", "+------+\n| 111  |\n| 234  |\n| 1    |\n+------+\n"),
    ("--streamed", "a\tb\n1\t2\n", "+---+---+\n| a | b |\n+---+---+\n| 1 | 2 |\n+---+---+\n"),
    ("--streamed --style modern", "a\tb\n", "┌───┬───┐\n│ a │ b │\n└───┴───┘\n"),
    ("--help", "", None),
]

# Arguments of `basinmug`, a text in CSV, and its table, records or document, written by hand.
SIZES = "name,size\nlog,42\nx,1000\n"
RECORDS = [
    ("", SIZES, "╭──────┬──────╮\n│ name │ size │\n├──────┼──────┤\n│ log  │   42 │\n│ x    │ 1000 │\n╰──────┴──────╯\n"),
    ("--max-rows 1 --style ascii", SIZES, "+------+------+\n| name | size |\n+------+------+\n| log  |   42 |\n+------+------+\n(1 more row)\n"),
    ("--max-rows 1 --tail 1 --style ascii", SIZES + "y,7\n", "+------+------+\n| name | size |\n+------+------+\n| log  |   42 |\n| …    |    … |\n| y    |    7 |\n+------+------+\n(1 row left out)\n"),
    ("--no-header --rules all --style modern", '"a,\n""b",1\n', '┌────┬───┐\n│ a, │ 1 │\n│ "b │   │\n└────┴───┘\n'),
    ("--width 15 --all-columns", "a,b\nx,one two three\n", "╭───┬─────────╮\n│ a │ b       │\n├───┼─────────┤\n│ x │ one two │\n│   │ three   │\n╰───┴─────────╯\n"),
    ("--width 15 --all-columns --truncate", "a,b\nx,one two three\n", "╭───┬─────────╮\n│ a │ b       │\n├───┼─────────┤\n│ x │ one tw… │\n╰───┴─────────╯\n"),
    ("--width 21 --all-columns", "name,number\nabc def,13960000\n", "╭──────┬──────────╮\n│ name │   number │\n├──────┼──────────┤\n│ abc  │ 13960000 │\n│ def  │          │\n╰──────┴──────────╯\n"),
    ("--align name=right --color size=red,0=bold", "name,size\na\x07,1\n", "╭──────┬──────╮\n│ \x1b[1mname\x1b[22m │ \x1b[31msize\x1b[39m │\n├──────┼──────┤\n│   \x1b[1ma␇\x1b[22m │    \x1b[31m1\x1b[39m │\n╰──────┴──────╯\n"),
    ("--expanded --max-rows 1", "name,size\nAda,42\nx,y\n", "-[ RECORD 0 ]-\nname | Ada\nsize | 42\n(1 more record)\n"),
    ("--expanded --tail 1", "name,size\nAda,42\nx,y\n", "-[ RECORD 1 ]-\nname | x\nsize | y\n(1 earlier record)\n"),
    ("--expanded --no-header", "a,b\n", "-[ RECORD 0 ]-\n0 | a\n1 | b\n"),
    ("--style markdown", "name,size\na|b,1\n", "| name | size |\n|:-----|-----:|\n| a\\|b |    1 |\n"),
    ("--style markdown --no-header --max-rows 1", "a,b\n1,2\n", "|   |   |\n|:--|:--|\n| a | b |\n\n(1 more row)\n"),
    ("--help", "", None),
]


def of_file(name):
    """An input whose table was written by hand, and is beside it."""
    return read(f"tests/memory/{name}.tsv"), read(f"tests/memory/{name}.table")


def of_many_rows():
    """Enough rows that each buffer grows several times; ASCII, so a cell is as wide as it is long."""
    seeded = random.Random(20)
    rows = [[str(at), "x" * seeded.randrange(12), str(seeded.randrange(10 ** 6))][: seeded.choice((1, 2, 3, 3, 3))] for at in range(3000)]
    text = "".join("\t".join(row) + "\n" for row in rows)
    return text.encode(), table(rows).encode()


def of_late_growth():
    """Rows that together have more bytes than the buffer of lines holds, and then one that takes four bytes a column: the
    buffer grows for it when a part of the table is written already."""
    rows = [["a" * 50_000]] * 3 + [["𐍈" * 50_000]]
    return "".join(row[0] + "\n" for row in rows).encode(), table(rows).encode()


def of_many_records():
    """Enough records that each buffer grows some times; ASCII, so a cell is as wide as it is long."""
    seeded = random.Random(21)
    rows = [["id", "text"]] + [[str(at), "y" * seeded.randrange(1, 12)] for at in range(40)]
    widths = [max(len(row[column]) for row in rows) for column in range(2)]
    lines = [f"| {one:>{widths[0]}} | {other:<{widths[1]}} |" for one, other in rows]
    rule = "+".join(["", *("-" * (width + 2) for width in widths), ""])
    return "--style ascii", "".join(",".join(row) + "\n" for row in rows), "\n".join([rule, lines[0], rule, *lines[1:], rule, ""])


class Refused(Case):
    """Programs that are refused memory."""

    @classmethod
    def setUpClass(cls):
        """Compiles the library that refuses."""
        folder = tempfile.TemporaryDirectory(prefix="refuse-")
        cls.addClassCleanup(folder.cleanup)
        cls.folder, cls.library = folder.name, f"{folder.name}/refuse.so"
        subprocess.run([os.environ.get("CC", "cc"), "-O2", "-Wall", "-shared", "-fPIC", "-o", cls.library, f"{ROOT}/tests/memory/refuse.c"], check=True)

    def refused(self, words, number):
        """Runs a program with one request refused: whether one was, and how the program ended."""
        mark = f"{self.folder}/mark"
        if os.path.exists(mark):
            os.remove(mark)
        with open(f"{self.folder}/input", "rb") as it:
            ran = ended(words, stdin=it, env=environment(LD_PRELOAD=self.library, REFUSE_CALL=str(number), REFUSE_MARK=mark))
        return os.path.exists(mark), ran

    def runs(self, words, text):
        """Writes the input, and gives the run with each request refused in turn: its number, and how it ended. The last is
        that of no refusal."""
        with open(f"{self.folder}/input", "wb") as it:
            it.write(text)
        for number in range(1, MOST):
            was_refused, ran = self.refused(words, number)
            yield number, was_refused, ran
            if not was_refused:
                break
        else:
            self.fail(f"after {MOST} refusals the program still asks for memory")
        self.assertGreater(number, 1, "nothing was refused: the program asked for no memory, or the library was not loaded")

    def assertRefusals(self, words, text, refusal, written):
        """At each refusal the program has this status and says this, and writes a prefix of what it writes otherwise, where
        that is given. Returns whether it had written something at one of them."""
        has_begun = False
        for number, was_refused, ran in self.runs(words, text):
            where = f"request {number}" if was_refused else f"no refusal (request {number} never came)"
            self.assertEqual((ran.returncode, ran.stderr), refusal if was_refused else (0, b""), where)
            if written is not None:
                self.assertTrue(written.startswith(ran.stdout) and (was_refused or ran.stdout == written), f"{where}: wrote {shown(ran.stdout)}")
            has_begun = has_begun or was_refused and ran.stdout != b""
        return has_begun


class Columns(Refused):
    """What `columns` does with its arguments and texts."""

    @classmethod
    def setUpClass(cls):
        super().setUpClass()
        cls.program = program("columns")

    def columns(self, words, text, wanted):
        return self.assertRefusals([self.program, *words.split()], text, (STATUS, SAID.format("columns").encode()), wanted)

    def test_rows_of_a_file(self):
        for name in ("worked", "wide"):
            with self.subTest(name):
                self.columns("", *of_file(name))

    def test_many_rows(self):
        self.columns("", *of_many_rows())

    def test_a_prefix_stays_where_the_buffer_of_lines_cannot_grow(self):
        self.assertTrue(self.columns("", *of_late_growth()), "no request came after the first byte that was written")

    def test_what_the_arguments_request(self):
        for words, text, wanted in ASKED:
            with self.subTest(words):
                self.columns(words, text.encode(), wanted and wanted.encode())


class Basinmug(Refused):
    """What `basinmug` does with its arguments and texts."""

    @classmethod
    def setUpClass(cls):
        super().setUpClass()
        cls.program = program("basinmug")

    def test_what_the_arguments_request(self):
        for words, text, wanted in (*RECORDS, of_many_records()):
            with self.subTest(f"{words}, {len(text)} bytes"):
                asked = [self.program, "--delimiter=,", *words.split()]
                self.assertRefusals(asked, text.encode(), (STATUS, SAID.format("basinmug").encode()), wanted and wanted.encode())


class Libraries(Refused):
    """What the libraries do in their tests."""

    def test_tests_of_libraries(self):
        """Each line names the crate of the test, the test, and the error by which a refused run ends."""
        for line in read("tests/memory/tests").decode().splitlines():
            if not line.startswith("#"):
                crate, name, error = line.split(" ", 2)
                with self.subTest(name):
                    words = [built(f"crates/{crate}/out/{crate}_tests"), f"tests::{name}"]
                    self.assertRefusals(words, b"", (TEST_STATUS, TEST_SAID.format(error).encode()), None)

    def test_a_run_is_refused_when_rows_are_written(self):
        """A run whose second line has more bytes than those before it requests memory after them, and its test says how much of
        the table is left."""
        words = [built("crates/columns_tests/out/columns_tests_tests"), "tests::refused::a_line_that_is_longer"]
        told = [ran.stdout for _, was_refused, ran in self.runs(words, b"") if was_refused]
        self.assertTrue(any(b"bytes are left of the table" in it for it in told), "no request came after the first row that was written")

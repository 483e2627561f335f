"""Runs the built program `columns` on bad and hostile inputs and on real standard streams.

Each test states the exit status, every byte of standard output and every byte of standard error. A run that a signal
ends, or that takes too long, fails. TEST_COLUMNS may name another program, which is not held to what only `make` can do.
"""
import hashlib
import itertools
import os
import re
import shutil
import subprocess
import sys
import tempfile
import time
import unittest

import streams
from common import ROOT, SECONDS, Case, called, ended, environment, manual_examples, other_program, program, read, table
from inputs import ASKED, NO_COLORS, REFUSED, TABLES
from test_words import calls

WORKED = b"a\tb\n1\t2\n"
WORKED_TABLE = b"+---+---+\n| a | b |\n+---+---+\n| 1 | 2 |\n+---+---+\n"
WRITE_FAILED = b"columns: write failed\n"
READ_FAILED = b"columns: read failed\n"
MODES = ("", "--truncate", "--keep-words", "--truncate --keep-words")
PRIORITIES = ("none", "min", "max", "left", "right")

# Arguments that are wrong, and what the text on standard error says of them.
FAULTY = [
    (["--width", "4294967296"], "'4294967296' for '--width <N>'"),
    (["--width", "-1"], "'-1'"),
    (["--width", "six"], "'six' for '--width <N>'"),
    (["--width", ""], "'--width <N>'"),
    (["--width"], "'--width <N>'"),
    (["--style", "none"], "[possible values: ascii, modern, extended, empty]"),
    (["--priority", "middle"], "[possible values: none, min, max, left, right]"),
    (["x"], "'x'"),
    ([""], "''"),
    (["--", "x"], "'x'"),
    (["-w", "6"], "'-w'"),
    (["--truncate", "--truncate"], "'--truncate' cannot be used multiple times"),
    (["--width", "6", "--width=6"], "'--width <N>' cannot be used multiple times"),
    (["--color"], "'--color <LIST>'"),
    (["--color", "-1=red"], "'-1'"),
    (["--color", "0=red", "--color=1=red"], "'--color <LIST>' cannot be used multiple times"),
]


def told(fault):
    """The line that reports an error."""
    return f"columns: {fault}\n".encode()


class Columns(Case):
    """A test of `columns`."""

    @classmethod
    def setUpClass(cls):
        cls.program = program("columns")


class Inputs(Columns):
    """What a text is, and where it comes from."""

    def test_tables(self):
        for name, given, wanted in TABLES:
            with self.subTest(name):
                self.assertPrints(given.encode(), wanted.encode())

    def test_what_is_no_text_is_refused_at_its_place(self):
        for name, given, fault in REFUSED:
            with self.subTest(name):
                self.assertRefuses(given, told(fault))

    def test_a_read_that_ends_inside_a_character_is_no_end(self):
        """Characters of several bytes at each place around the sizes that a buffer may have."""
        for size in (4096, 8192, 65536):
            with self.subTest(f"around byte {size}"):
                for before in range(size - 4, size + 1):
                    text = "x" * before + "漢😳"
                    self.assertPrints(f"{text}\n".encode(), table([[text]], lambda it: len(it) + 2).encode())

    def test_one_byte_at_a_time(self):
        """A pipe that gives one byte at a time, so that most reads are short."""
        started = subprocess.Popen([self.program], stdin=subprocess.PIPE, stdout=subprocess.PIPE, stderr=subprocess.PIPE, bufsize=0, env=environment())
        for byte in "漢\tb\n1\n".encode():
            started.stdin.write(bytes([byte]))
            time.sleep(0.01)
        wrote, said = started.communicate(timeout=SECONDS)
        self.assertEqual((started.returncode, said), (0, b""))
        self.assertSame(wrote, "+----+---+\n| 漢 | b |\n+----+---+\n| 1  |   |\n+----+---+\n".encode())

    def test_a_folder_is_a_read_error(self):
        folder = os.open("/", os.O_RDONLY)
        try:
            self.assertRefuses(None, READ_FAILED, stdin=folder)
        finally:
            os.close(folder)

    def test_standard_input_that_is_only_to_be_written_is_a_read_error(self):
        with open("/dev/null", "wb") as closed:
            self.assertRefuses(None, READ_FAILED, stdin=closed)

    def test_closed_standard_input_is_a_read_error(self):
        self.assertRefuses(None, READ_FAILED, stdin=None, preexec_fn=lambda: os.close(0))

    def test_an_empty_file_has_no_table(self):
        self.assertPrints(None, b"", stdin=subprocess.DEVNULL)


class Surroundings(Columns):
    """What makes no difference: the environment, the locale, the folder."""

    def test_an_empty_environment(self):
        self.assertPrints(WORKED, WORKED_TABLE, env={})

    def test_a_foreign_locale(self):
        self.assertPrints("é\n".encode(), "+---+\n| é |\n+---+\n".encode(), env=environment(LC_ALL="C", COLUMNS="3"))

    def test_another_folder(self):
        self.assertPrints(WORKED, WORKED_TABLE, cwd="/")


class Outputs(streams.Outputs, Columns):
    """Standard output that takes nothing, or stops taking: an error, and no signal."""

    given, refused = WORKED, b"\x1b"
    full = closed = WRITE_FAILED
    left = 1, WRITE_FAILED
    rows = [[str(at), "a cell of some length"] for at in range(50_000)]
    large, front = "".join("\t".join(row) + "\n" for row in rows).encode(), table(rows).encode()[:1000]

    def test_an_escape_is_reported_before_a_full_disk(self):
        with open("/dev/full", "wb") as full:
            self.assertRefuses(b"a\x1b", told("escape at byte 1"), stdout=full)

    def test_standard_output_that_is_only_to_be_read_is_a_write_error(self):
        with open("/dev/null", "rb") as closed:
            self.assertRefuses(WORKED, WRITE_FAILED, stdout=closed)

    def test_a_reader_that_takes_a_few_bytes_at_a_time_gets_all(self):
        rows, line, boundary = 1_000_000, b"| a |\n", b"+---+\n"
        with tempfile.TemporaryFile() as text:
            text.write(b"a\n" * rows)
            text.seek(0)
            started = subprocess.Popen([self.program], stdin=text, stdout=subprocess.PIPE, stderr=subprocess.DEVNULL, env=environment(), bufsize=0)
            output = started.stdout.fileno()
            wrote = b"".join(iter(lambda: os.read(output, 11), b""))
            started.stdout.close()
            self.assertEqual(started.wait(SECONDS), 0)
        self.assertSame(wrote, boundary + (line + boundary) * rows)

    def test_closed_standard_error_leaves_the_status(self):
        self.assertRefuses(b"\x1b", None, stderr=None, preexec_fn=lambda: os.close(2))


def chunked_sum(pieces):
    """The length and the sum of a long text that comes in pieces."""
    whole, length = hashlib.sha256(), 0
    for piece in pieces:
        whole.update(piece)
        length += len(piece)
    return length, whole.hexdigest()


class Large(Columns):
    """Inputs of many megabytes, through files. The tables are known by their length and sum."""

    def assertFiles(self, words, given, wanted, status=0, said=b""):
        """The program reads a file of these pieces, and writes a file of those."""
        with tempfile.TemporaryFile() as text, tempfile.TemporaryFile() as out:
            text.writelines(given)
            text.seek(0)
            self.assertEnds(ended([self.program, *words], stdin=text, stdout=out), status=status, said=said)
            out.seek(0)
            self.assertEqual(chunked_sum(iter(lambda: out.read(1 << 20), b"")), chunked_sum(wanted))

    def test_long_texts(self):
        mega = b"x" * (1 << 20)
        dashes = b"-" * (1 << 20)
        border = [b"+", *[dashes] * 64, b"--+\n"]
        for name, given, wanted in (
            ("64 MiB of one line", [mega] * 64, [*border, b"| ", *[mega] * 64, b" |\n", *border]),
            ("a million empty lines", [b"\n" * 1_000_000], [b"+--+\n", b"|  |\n+--+\n" * 1_000_000]),
            ("a million tabs", [b"\t" * 1_000_000, b"\n"], [b"+", b"--+" * 1_000_001, b"\n|", b"  |" * 1_000_001, b"\n+", b"--+" * 1_000_001, b"\n"]),
            ("a row of a thousand cells over a thousand short rows", [b"a\t" * 999, b"a\n", b"b\n" * 1000],
             [b"+", b"---+" * 1000, b"\n|", b" a |" * 1000, b"\n+", b"---+" * 1000, b"\n",
              *[b"| b |" + b"   |" * 999 + b"\n+" + b"---+" * 1000 + b"\n"] * 1000]),
            ("a million sequences before one letter", [b"\x1b[31m" * 1_000_000, b"x"], [b"+---+\n| ", b"\x1b[31m" * 1_000_000, b"x\x1b[39m |\n+---+\n"]),
            ("a million marks on one letter", ["a".encode(), "\u0301".encode() * 1_000_000], ["+---+\n| a".encode(), "\u0301".encode() * 1_000_000, b" |\n+---+\n"]),
        ):
            with self.subTest(name):
                self.assertFiles([], given, wanted)

    def test_long_texts_are_refused_at_their_place(self):
        mega = b"x" * (1 << 20)
        for name, given, fault in (
            ("64 MiB of one line, and an escape", [*[mega] * 64, b"\x1b\n"], "escape at byte 67108864"),
            ("64 MiB of one line, and half a character", [*[mega] * 64, b"\xe2\x82"], "not UTF-8 at byte 67108864"),
            ("a million control sequences that are not whole", [b"\x1b[" * 1_000_000], "escape at byte 0"),
            ("a control string of a million letters that does not end", [b"\x1b]", b"a" * 1_000_000], "escape at byte 0"),
        ):
            with self.subTest(name):
                self.assertFiles([], given, [], 1, told(fault))

    def test_a_million_columns_in_a_narrow_table(self):
        columns = 1_000_000
        edge = [b"+", b"--+" * columns, b"\n"]
        given, wanted = [b"a\t" * (columns - 1), b"a\n"], [*edge, b"|", b"  |" * columns, b"\n", *edge]
        for words in (*(f"--priority {name}" for name in PRIORITIES), "--truncate", "--keep-words"):
            with self.subTest(words):
                self.assertFiles(["--width", "80", *words.split()], given, wanted)

    def test_long_texts_in_narrow_tables(self):
        border, rest, red = b"+" + b"-" * 78 + b"+\n", 67_108_864 % 76, b"\x1b[31m"
        full = b"| " + b"x" * 76 + b" |\n"
        for name, words, given, wanted in (
            ("64 MiB of one line, wrapped", "--width 80", [b"x" * 67_108_864],
             [border, full * (67_108_864 // 76), b"| " + b"x" * rest + b" " * (76 - rest) + b" |\n", border]),
            ("64 MiB of one line, cut", "--width 80 --truncate", [b"x" * 67_108_864], [border, full, border]),
            ("64 MiB of one line beside a thousand others", "--width 80 --truncate", [b"x" * 67_108_864, b"\n", b"y\n" * 1000],
             [border, full, border, (b"| y" + b" " * 75 + b" |\n" + border) * 1000]),
            ("a million sequences, wrapped to a column", "--width 5", [red * 1_000_000, b"ab\n"],
             [b"+---+\n| ", red * 1_000_000, b"a\x1b[39m |\n| ", red, b"b\x1b[39m |\n+---+\n"]),
            ("a million letters, wrapped to a column", "--width 5", [b"a" * 1_000_000], [b"+---+\n", b"| a |\n" * 1_000_000, b"+---+\n"]),
            ("a million words, kept", "--width 10 --keep-words", [b"ab cd " * 500_000], [b"+--------+\n", b"| ab cd  |\n" * 500_000, b"+--------+\n"]),
        ):
            with self.subTest(name):
                self.assertFiles(words.split(), given, wanted)


class Options(Columns):
    """What the arguments of the command line request."""

    def test_tables_that_are_requested(self):
        for words, given, wanted in ASKED:
            with self.subTest(f"{words} of {given!r}"):
                self.assertPrints(given.encode(), wanted.encode(), *words.split())

    def test_without_a_width_and_streamed_options_of_a_width_do_nothing(self):
        idle = ["--truncate", "--keep-words", "--priority max"]
        for words in [*idle, " ".join(idle), "--streamed", *(f"--streamed {one}" for one in idle), "--streamed --width 6"]:
            with self.subTest(words):
                self.assertPrints(b"aaaa\tbb\n", b"+------+----+\n| aaaa | bb |\n+------+----+\n", *words.split())

    def test_lists_of_colours_without_the_form_are_refused(self):
        for colors, words in itertools.product(NO_COLORS, ([], ["--streamed"], ["--width", "6"])):
            with self.subTest(f"{words} --color={colors}"):
                self.assertRefuses(b"aaaa\tbb\n", b"columns: bad color\n", *words, f"--color={colors}", status=2)

    def test_bad_and_empty_inputs_under_options(self):
        for words in ("--width 3", "--truncate --width 0", "--streamed", "--color 0=red"):
            for name, given, fault in (REFUSED[0], REFUSED[10]):
                with self.subTest(f"{words}: {name}"):
                    self.assertRefuses(given, told(fault), *words.split())
            with self.subTest(f"{words}: an empty input"):
                self.assertPrints(b"", b"", *words.split())

    def test_no_width_and_way_to_narrow_makes_a_bad_input_good(self):
        for name, given, fault in REFUSED:
            with self.subTest(name):
                for width, mode, priority in itertools.product((0, 1, 3, 79, 4294967295), MODES, PRIORITIES):
                    self.assertRefuses(given, told(fault), "--width", str(width), "--priority", priority, *mode.split())

    def test_a_width_that_the_table_does_not_pass_changes_nothing(self):
        for at, (name, given, wanted) in enumerate(TABLES):
            with self.subTest(name):
                for priority in PRIORITIES:
                    self.assertPrints(given.encode(), wanted.encode(), "--width", "4294967295", "--priority", priority, *MODES[at % 4].split())


class Words(Columns):
    """Wrong arguments, the help and the version."""

    def test_wrong_arguments_are_reported_on_standard_error(self):
        for words, why in FAULTY:
            with self.subTest(f"{words}"):
                ran = ended([self.program, *words])
                said = ran.stderr.decode()
                self.assertEqual((ran.returncode, ran.stdout), (2, b""))
                self.assertTrue(said.startswith("error: ") and why in said and said.endswith("\nFor more information, try '--help'.\n"), said)

    def test_an_argument_that_is_not_utf_8_is_reported(self):
        self.assertRefuses(WORKED, b"columns: an argument is not UTF-8\n", b"\xff\x1b", status=2)

    def test_wrong_arguments_leave_their_status_where_the_disk_is_full(self):
        with open("/dev/full", "wb") as full:
            self.assertRefuses(b"", None, "x", status=2, stderr=full)

    def test_the_help_is_printed(self):
        for words in (["--help"], ["-h"], ["--width", "6", "--help", "x"]):
            with self.subTest(f"{words}"):
                ran = ended([self.program, *words])
                self.assertEqual((ran.returncode, ran.stderr), (0, b""))
                for part in ("Reads standard input", "Usage: columns [OPTIONS] < FILE", "--width <N>", "--streamed", "Exit status:"):
                    self.assertIn(part, ran.stdout.decode())

    def test_the_version_is_printed(self):
        for word in ("--version", "-V"):
            with self.subTest(word):
                self.assertPrints(b"", b"columns 0.1.0\n", word)

    def test_the_help_on_closed_standard_output_is_a_write_error(self):
        self.assertRefuses(b"", WRITE_FAILED, "--help", stdout=None, preexec_fn=lambda: os.close(1))


def marked(line):
    """What `cat -v` writes for the bytes of a line."""
    def low(byte):
        return chr(byte) if 32 <= byte < 127 else "^?" if byte == 127 else f"^{chr(byte + 64)}"
    return "".join(low(byte) if byte < 128 else f"M-{low(byte - 128)}" for byte in line)


class Examples(Columns):
    """The bundled example, whose table was made apart from the program and is on the page of `columns`."""

    def setUp(self):
        self.text, self.wanted = read("examples/nightly.tsv"), read("examples/nightly.table")
        self.page = read("crates/columns/README.md").decode()

    def test_the_example_prints_its_table(self):
        self.assertPrints(self.text, self.wanted)

    def test_the_page_shows_the_table_without_colours(self):
        for line in self.wanted.decode().splitlines():
            self.assertIn("    " + re.sub("\x1b\\[[0-9;]*m", "", line) + "\n", self.page)

    def test_the_page_shows_two_rows_with_their_sequences(self):
        for line in self.wanted.splitlines()[1:8:6]:
            self.assertIn(f"    {marked(line)[:53]}\n", self.page)

    def test_the_commands_on_the_page_print_narrowed_and_coloured_tables(self):
        words = re.findall(r"^    \$ columns (.*) < examples/nightly\.tsv$", self.page, re.M)
        for name, asked in zip(("narrow", "colored"), words, strict=True):
            with self.subTest(name):
                self.assertPrints(self.text, read(f"examples/{name}.table"), *asked.split())

    def test_commands_for_a_text_of_one_s_own_print_its_table(self):
        """The page's commands, in their order, on a row of three cells; the third of them lists the folder."""
        shown = re.findall(r"^    (\S+(?: \S+)*)(?:  +\S.*)?$", self.page.partition("## Use")[2].partition("\n## ")[0], re.M)
        plain, coloured = (f"+---+---+---+\n| {a} | b | {c} |\n+---+---+---+\n".encode() for a, c in (("a", "c"), ("\x1b[1ma\x1b[22m", "\x1b[31mc\x1b[39m")))
        with tempfile.TemporaryDirectory() as folder:
            written(f"{folder}/report.tsv", "a\tb\tc\n")
            written(f"{folder}/plain.csv", "a,b,c\n")
            for command, wanted in zip(shown, (plain, plain, None, coloured), strict=True):
                with self.subTest(command):
                    ran = called(command, "columns", self.program, folder)
                    if wanted is not None:
                        self.assertEnds(ran, wanted)
                        continue
                    self.assertEqual((ran.returncode, ran.stderr), (0, b""))
                    lines = re.sub("\x1b\\[[0-9;]*[mK]", "", ran.stdout.decode()).splitlines()
                    self.assertEqual([len(lines), len({len(line) for line in lines}), {line[0] + line[-1] for line in lines}], [5, 1, {"++", "||"}])
                    self.assertEqual([line.rstrip("| ").rpartition(" ")[2] for line in lines[1::2]], ["plain.csv", "report.tsv"])

    def test_examples_of_the_manual_page_run(self):
        shown = manual_examples("columns")
        self.assertGreaterEqual(len(shown), 4)
        with tempfile.TemporaryDirectory() as folder:
            for name in ("report.tsv", "notes.tsv"):
                shutil.copy(f"{ROOT}/examples/nightly.tsv", f"{folder}/{name}")
            for command in shown:
                with self.subTest(command):
                    ran = called(command, "columns", self.program, folder)
                    self.assertEqual((ran.returncode, ran.stderr, ran.stdout != b""), (0, b"", True))

    def test_commands_of_all_pages_run(self):
        """On files of these names; without one they read two rows."""
        shown = {it.line: it.page for it in calls() if it.program == "columns"}
        self.assertGreaterEqual(len(shown), 7)
        with tempfile.TemporaryDirectory() as folder:
            os.mkdir(f"{folder}/examples")
            for name in ("examples/nightly.tsv", "report.tsv", "notes.tsv"):
                shutil.copy(f"{ROOT}/examples/nightly.tsv", f"{folder}/{name}")
            for command, page in shown.items():
                with self.subTest(f"{page}: {command}"):
                    ran = called(command, "columns", self.program, folder, WORKED)
                    self.assertEqual((ran.returncode, ran.stderr, ran.stdout != b""), (0, b"", True))

    def test_the_pictures_are_of_their_tables(self):
        for name in ("nightly", "narrow", "colored"):
            with self.subTest(name):
                drawn = ended([sys.executable, f"{ROOT}/docs/picture"], read(f"examples/{name}.table"))
                self.assertSame(drawn.stdout, read(f"docs/{name}.svg"))


@unittest.skipIf(other_program("columns"), "another program is tested")
class ByMake(Columns):
    """`make run`, as the README gives it, with the program built."""

    def test_the_example_is_printed(self):
        self.assertEnds(ended(["make", "-s", "run"], cwd=ROOT), read("examples/nightly.table"))

    def test_commands_of_the_page_print_what_it_shows_below_them(self):
        """The first page shows the table without its colours."""
        shown = re.findall(r"^    \$ (make .*)\n((?:    .*\n)+)", read("crates/columns/README.md").decode(), re.M)
        self.assertEqual(sorted(command for command, _ in shown), sorted({it.line for it in calls() if it.line.startswith("make -s run ")}))
        for command, below in shown:
            with self.subTest(command):
                ran = ended(["sh", "-c", command], cwd=ROOT)
                self.assertEqual((ran.returncode, ran.stderr), (0, b""))
                self.assertSame(re.sub(b"\x1b\\[[0-9;]*m", b"", ran.stdout), re.sub("^    ", "", below, flags=re.M).encode())

    def test_standard_input_is_printed(self):
        self.assertEnds(ended(["make", "-s", "run", "INPUT=/dev/stdin"], WORKED, cwd=ROOT), WORKED_TABLE)

    def test_a_refusal_is_reported_before_what_make_says(self):
        ran = ended(["make", "-s", "run", "INPUT=/dev/stdin"], b"\x1b", cwd=ROOT)
        first, *others = ran.stderr.decode().splitlines()
        self.assertEqual((ran.returncode != 0, ran.stdout, first), (True, b"", "columns: escape at byte 0"))
        self.assertTrue(all(line.startswith("make: ") for line in others), others)


# What takes the place of `rt` and of the builder, where all that counts is what is made of their answers.
ENDS = """#!/bin/sh
printf 'columns: escape at byte 0\nchecked: ended status=1\nrun=ended status=1 runners=1 proved=no\n' >&2
exit 1
"""
HAS_NO_ANSWER = """#!/bin/sh
printf 'checked: no-answer: too much\nrun=none proved=no\n' >&2
exit 6
"""
BUILDS = """#!/bin/sh
mkdir -p crates/columns/out
printf '#!/bin/sh\nwc -c\n' > crates/columns/out/columns
chmod +x crates/columns/out/columns
"""


def written(path, text):
    os.makedirs(os.path.dirname(path), exist_ok=True)
    with open(path, "w", encoding="utf-8") as it:
        it.write(text)
    os.chmod(path, 0o755)



@unittest.skipIf(other_program("columns"), "another program is tested")
class NotBuilt(Case):
    """`make run` and `tools/try` in a copy in which nothing is built: `rt try` runs the sources, or what takes its place."""

    def setUp(self):
        folder = tempfile.TemporaryDirectory()
        self.addCleanup(folder.cleanup)
        self.copy, self.stand_in = f"{folder.name}/copy", f"{folder.name}/bin/rt"
        shutil.copytree(f"{ROOT}/tools", f"{self.copy}/tools")
        os.makedirs(f"{self.copy}/crates/columns")

    def said_by_try(self, given=b""):
        """The status of `tools/try`, what it wrote, and the lines that it said."""
        path = f"{os.path.dirname(self.stand_in)}:{os.environ['PATH']}"
        ran = ended([f"{self.copy}/tools/try"], given, cwd=self.copy, env=environment(PATH=path), timeout=600)
        return ran.returncode, ran.stdout, ran.stderr.decode(errors="replace").splitlines()

    def test_make_run_prints_the_example_unproved(self):
        shutil.copytree(ROOT, self.copy, symlinks=True, ignore=shutil.ignore_patterns("out", ".git", "data", "dist"), dirs_exist_ok=True)
        ran = ended(["make", "-s", "run"], cwd=self.copy, timeout=600)
        self.assertSame(ran.stdout, read("examples/nightly.table"))
        self.assertEqual((ran.returncode, ran.stderr.count(b"\n"), b"not proved" in ran.stderr), (0, 1, True), ran.stderr)

    def test_a_refusal_has_its_status_and_line(self):
        written(self.stand_in, ENDS)
        status, wrote, lines = self.said_by_try(b"\x1b")
        self.assertEqual((status, wrote, lines[1:]), (1, b"", ["columns: escape at byte 0"]))
        self.assertIn("not proved", lines[0])

    def test_a_run_without_an_answer_says_what_to_do(self):
        written(self.stand_in, HAS_NO_ANSWER)
        status, wrote, lines = self.said_by_try()
        self.assertEqual((status, wrote), (6, b""))
        self.assertIn("`make build`", lines[-1])

    def test_too_long_an_input_is_given_to_the_built_program(self):
        written(f"{self.copy}/tools/build", BUILDS)
        status, wrote, lines = self.said_by_try(b"x" * 100_000)
        self.assertEqual((status, wrote.strip()), (0, b"100000"))
        self.assertIn("65536 bytes", lines[0])

"""Calls the built library `libbasinmug` as programs in C and C++ do; test_wheel.py and test_rust.py hold callers in others.

Each option's tables are held to those that the program must print too (inputs.py), and to what it prints. A language
whose compiler is missing is passed over.
"""
import ctypes
import itertools
import os
import random
import re
import shutil
import tempfile
import unittest

from common import ROOT, Case, built, ended, environment, limited, program, read, shown
from inputs import ASKED, NO_COLORS, REFUSED, TABLES

LIB = f"{ROOT}/lib"
SHARED = f"{LIB}/libbasinmug.so.0"
# The stack that the header wants for a call.
STACK = 512 << 10
STYLES = ["ascii", "modern", "extended", "empty"]
PRIORITIES = ["none", "min", "max", "left", "right"]
NO_WIDTH = 2 ** 64 - 1
FRONT = 64  # bytes of the buffer of a call that has too little
NO_TEXT = b"\xff"


class Options(ctypes.Structure):
    """`struct basinmug_options`, and the list of colours beside it, if there is one."""

    colors = None
    _fields_ = [
        ("version", ctypes.c_uint32),
        ("style", ctypes.c_uint32),
        ("width", ctypes.c_size_t),
        ("priority", ctypes.c_uint32),
        ("truncate", ctypes.c_uint32),
        ("keep_words", ctypes.c_uint32),
        ("reserved", ctypes.c_uint32),
        ("max_size", ctypes.c_uint64),
        ("reserved_words", ctypes.c_uint64 * 3),
    ]


class Answer(ctypes.Structure):
    """`struct basinmug_answer`."""

    _fields_ = [(name, ctypes.c_size_t) for name in ("size", "place", "row", "column")]


def options(**asked):
    """What the arguments request, begun as BASINMUG_OPTIONS is."""
    return Options(**{"version": 1, "width": NO_WIDTH, **asked})


def colored(colors, **asked):
    """The same, with a list of colours."""
    found = options(**asked)
    found.colors = colors
    return found


def by_words(words):
    """The options that arguments of the command line request; none for those that the library has no option for."""
    asked, colors, left = {}, None, words.replace("--color=", "--color ").split()
    while left:
        word = left.pop(0)
        if word == "--width":
            asked["width"] = int(left.pop(0))
        elif word == "--color":
            colors = left.pop(0).encode()
        elif word == "--style":
            asked["style"] = STYLES.index(left.pop(0))
        elif word == "--priority":
            asked["priority"] = PRIORITIES.index(left.pop(0))
        elif word in ("--truncate", "--keep-words"):
            asked[word[2:].replace("-", "_")] = 1
        else:
            return None
    return colored(colors, **asked)


class PrintOptions(ctypes.Structure):
    """`struct basinmug_print_options`, and the lists beside it."""

    columns, align, color = b"", b"", b""
    _fields_ = [
        ("size", ctypes.c_size_t),
        *((name, ctypes.c_uint32) for name in ("delimiter", "no_header", "style", "rules", "escapes", "truncate", "priority", "expanded", "all_columns", "reserved")),
        ("width", ctypes.c_size_t),
        ("max_rows", ctypes.c_size_t),
        ("tail", ctypes.c_size_t),
        ("max_size", ctypes.c_size_t),
        ("head", ctypes.c_size_t),
        ("reserved_words", ctypes.c_uint64 * 6),
    ]


class PrintAnswer(ctypes.Structure):
    """`struct basinmug_print_answer`."""

    _fields_ = [(name, ctypes.c_size_t) for name in ("size", "wider", "line", "field", "row", "column")]


NONE = (0,) * 6  # what is reported of no number
PRINT_STYLES = ["ascii", "modern", "extended", "empty", "rounded", "markdown"]
RULES = ["header", "all", "none"]
ESCAPES = ["colors", "all", "none"]


def printing(columns=b"", align=b"", color=b"", **requested):
    """These options, begun as BASINMUG_PRINT_OPTIONS is."""
    begun = {"size": ctypes.sizeof(PrintOptions), "style": 4, "priority": 2, "width": NO_WIDTH, "max_rows": NO_WIDTH, "tail": NO_WIDTH, "max_size": NO_WIDTH}
    found = PrintOptions(**{**begun, **requested})
    found.columns, found.align, found.color = columns, align, color
    return found


def borrowed(text):
    """A text, and its length."""
    return ctypes.c_char_p(text), ctypes.c_size_t(len(text))


def told(answer):
    return tuple(getattr(answer, name) for name, _ in answer._fields_)


class Library:
    """The shared object."""

    def __init__(self):
        self.library = ctypes.CDLL(SHARED)
        for name in ("print", "print_cells", "table", "colored_table", "width", "strip", "version"):
            getattr(self.library, f"basinmug_{name}").restype = ctypes.c_uint32

    def call(self, asked, text, room):
        """The status, the numbers beside it, and the buffer, which held '#' in each byte."""
        if asked.colors is None:
            return self.written(self.library.basinmug_table, (ctypes.byref(asked), *borrowed(text)), room)
        return self.written(self.library.basinmug_colored_table, (ctypes.byref(asked), *borrowed(asked.colors), *borrowed(text)), room)

    def print(self, requested, text, room):
        """The status of records that are printed, what is reported beside it, and the memory, which held '#' in each byte."""
        lists = [it for found in (requested.columns, requested.align, requested.color) for it in borrowed(found)]
        return self.written(self.library.basinmug_print, (ctypes.byref(requested), *lists, *borrowed(text)), room, PrintAnswer(*[7] * 6))

    def print_cells(self, requested, rows, room, per_record=None, lengths=None):
        """The same, of rows of cells; `per_record` and `lengths` in place of those that they have."""
        lists = [it for found in (requested.columns, requested.align, requested.color) for it in borrowed(found)]
        cells = [cell for row in rows for cell in row]
        found = [len(cell) for cell in cells] if lengths is None else lengths
        given = (*borrowed(b"".join(cells)), (ctypes.c_size_t * len(found))(*found), ctypes.c_size_t(len(found)))
        many = ctypes.c_size_t((len(rows[0]) if rows else 0) if per_record is None else per_record)
        return self.written(self.library.basinmug_print_cells, (ctypes.byref(requested), *lists, *given, many), room, PrintAnswer(*[7] * 6))

    def strip(self, text, room):
        """The same of a text that is stripped."""
        return self.written(self.library.basinmug_strip, borrowed(text), room)

    def width(self, text):
        """The status, and the numbers beside it."""
        answer = Answer(7, 7, 7, 7)
        return self.library.basinmug_width(*borrowed(text), ctypes.byref(answer)), told(answer)

    def written(self, call, given, room, answer=None):
        out, answer = ctypes.create_string_buffer(b"#" * room, max(room, 1)), answer or Answer(7, 7, 7, 7)
        status = call(*given, out, ctypes.c_size_t(room), ctypes.byref(answer))
        return status, told(answer), out.raw[:room]


# Texts, how many columns they take, and what they are without their sequences; by hand.
TEXTS = [
    ("", 0, ""),
    ("ab", 2, "ab"),
    ("表 한", 5, "表 한"),
    ("e\u0301", 1, "e\u0301"),
    ("👩\u200d💻", 2, "👩\u200d💻"),
    ("\x1b[31mab\x1b[0m", 2, "ab"),
    ("\x1b[1ma\x1b[0m\nbcd\ne", 3, "a\nbcd\ne"),
    ("\x1b]0;long\ntitle\x07x\x1b]8;;http://y\x1b\\z", 2, "xz"),
    ("\x1b[2K\x1b[31m", 0, ""),
    ("a\tb", 3, "a\tb"),
    ("a\x1b", 1, "a"),
    ("x" * 100 + "\x1b[0m", 100, "x" * 100),
]


class Calls(Case):
    """Calls of the shared object."""

    @classmethod
    def setUpClass(cls):
        built("lib")
        cls.program, cls.library = program("columns"), Library()

    def assertOutput(self, call, wanted, reported):
        """A call writes these bytes and reports this: with no memory, with too little, with exactly as much, and with more."""
        for room in (0, FRONT, len(wanted), len(wanted) + 1):
            status, answer, out = call(room)
            self.assertEqual((status, answer), (0, reported), f"memory of {room}")
            self.assertSame(out, wanted[:room] + b"#" * (room - len(wanted)))

    def assertWritten(self, call, wanted):
        self.assertOutput(call, wanted, (len(wanted), 0, 0, 0))

    def assertTable(self, asked, text, wanted):
        self.assertWritten(lambda room: self.library.call(asked, text, room), wanted)

    def assertRefused(self, asked, text, status, answer=(0, 0, 0, 0)):
        self.assertEqual(self.library.call(asked, text, FRONT), (status, answer, b"#" * FRONT))


class Tables(Calls):
    """Tables of texts, as the program's."""

    def test_tables(self):
        for name, given, wanted in TABLES:
            with self.subTest(name):
                self.assertTable(options(), given.encode(), wanted.encode())

    def test_tables_that_are_requested(self):
        for words, given, wanted in ASKED:
            asked = by_words(words)
            if asked is not None:
                with self.subTest(f"{words} of {given!r}"):
                    self.assertTable(asked, given.encode(), wanted.encode())

    def test_each_option_beside_each_other_as_the_program_prints(self):
        """On some inputs."""
        seeded = random.Random(70)
        inputs = [given.encode() for _, given, _ in TABLES] + [given.encode() for _, given, _ in ASKED]
        colors = [None, None, "0=red", "1=bold,0=green", "2=underline,7=blue"]
        ways = itertools.product(STYLES, PRIORITIES, (None, 0, 7, 12, 30), (False, True), (False, True))
        for style, priority, width, truncate, keep_words in ways:
            words = ["--style", style, "--priority", priority]
            words += ["--width", str(width)] if width is not None else []
            words += ["--truncate"] * truncate + ["--keep-words"] * keep_words
            listed = seeded.choice(colors)
            words += ["--color", listed] if listed else []
            text = seeded.choice(inputs)
            with self.subTest(f"{' '.join(words)} of {shown(text)}"):
                self.assertTable(by_words(" ".join(words)), text, ended([self.program, *words], text, check=True).stdout)

    def test_the_greatest_width_that_can_be_requested(self):
        self.assertTable(options(width=NO_WIDTH - 1), b"ab\n", b"+----+\n| ab |\n+----+\n")


class Refusals(Calls):
    """What has no table, and options that mean nothing."""

    def test_what_is_no_text_is_refused_at_its_place(self):
        for name, given, fault in REFUSED:
            with self.subTest(name):
                place = int(fault.split()[-1])
                self.assertRefused(options(), given, 1 if fault.startswith("not UTF-8") else 2, (0, place, 0, 0))

    def test_numbers_without_a_meaning_are_refused_before_the_text(self):
        for what, status, values in [
            ("version", 33, (0, 2, 2 ** 32 - 1)),
            ("style", 34, (4, 5, 2 ** 32 - 1)),
            ("priority", 35, (5, 6, 2 ** 32 - 1)),
            ("truncate", 36, (2, 256, 2 ** 32 - 1)),
            ("keep_words", 37, (2, 256, 2 ** 32 - 1)),
            ("reserved", 38, (1, 2 ** 32 - 1)),
        ]:
            for value in values:
                with self.subTest(f"{what} {value}"):
                    self.assertRefused(options(**{what: value}), NO_TEXT, status)

    def test_reserved_words_are_refused(self):
        for at in range(3):
            with self.subTest(f"word {at}"):
                asked = options()
                asked.reserved_words[at] = 1 << 63
                self.assertRefused(asked, NO_TEXT, 38)

    def test_tables_over_their_greatest_size(self):
        """They are refused after all else that is wrong, and nothing is written."""
        for colors in (None, b"0=red"):
            table = b"+----+\n| ab |\n+----+\n" if colors is None else b"+----+\n| \x1b[31mab\x1b[39m |\n+----+\n"
            for most in (1, 6, 7, len(table) - 1):
                with self.subTest(f"{most} in {colors}"):
                    self.assertRefused(colored(colors, max_size=most), b"ab\n", 13)
            for most in (0, len(table), len(table) + 1, 2 ** 63, 2 ** 64 - 1):
                with self.subTest(f"{most} in {colors}"):
                    self.assertTable(colored(colors, max_size=most), b"ab\n", table)
        self.assertTable(options(max_size=1), b"", b"")
        self.assertRefused(options(max_size=1), b"a\xff", 1, (0, 1, 0, 0))
        self.assertRefused(options(max_size=1), b"a\x1b", 2, (0, 1, 0, 0))
        self.assertRefused(options(max_size=1, keep_words=2), b"ab\n", 37)
        self.assertRefused(colored(b"pink", max_size=1), b"ab\n", 39)

    def test_the_first_of_several_numbers_is_reported(self):
        names = ["version", "style", "priority", "truncate", "keep_words", "reserved"]
        for at, name in enumerate(names):
            with self.subTest(f"all from {name} on"):
                self.assertRefused(options(**{it: 9 for it in names[at:]}), NO_TEXT, 33 + at)

    def test_options_that_nobody_set_are_refused(self):
        self.assertRefused(Options(), NO_TEXT, 33)

    def test_the_text_is_refused_where_the_options_are_well(self):
        self.assertRefused(options(), NO_TEXT, 1)

    def test_lists_of_colours_without_the_form_are_refused_before_the_text(self):
        for colors in [*(it.encode() for it in NO_COLORS), b"0=r\xff", b"\xff=red", b"0=red\0", b"\x00"]:
            with self.subTest(f"{colors}"):
                self.assertRefused(colored(colors), NO_TEXT, 39)

    def test_a_style_is_reported_before_colours(self):
        self.assertRefused(colored(b"pink", style=9), b"a", 34)

    def test_a_text_in_colours_is_refused_at_its_place(self):
        for name, text, status in (("no text", b"a\xff", 1), ("a broken escape", b"a\x1b", 2)):
            with self.subTest(name):
                self.assertRefused(colored(b"0=red"), text, status, (0, 1, 0, 0))


# Records, and what separates their fields.
RECORDS = [
    ("", ","),
    ("name,n\nab,1\n", ","),
    ("name;price;note\nbolt;1,5;a long note of several words\nnut;22;\"two\nlines\"\n", ";"),
    ("a\tb\tc\n\x1b[31mred\x1b[0m\t\x1b]0;title\x07x\t\x07\n表\t한\te\u0301\n", "\t"),
    ("sep=|\na|b\n1|2\n", None),
]


class Prints(Calls):
    """Records as the program `basinmug` prints them."""

    @classmethod
    def setUpClass(cls):
        super().setUpClass()
        cls.basinmug = program("basinmug")

    def assertPrinted(self, requested, text, wanted, wider=0):
        self.assertOutput(lambda room: self.library.print(requested, text, room), wanted, (len(wanted), wider, 0, 0, 0, 0))

    def assertNotPrinted(self, requested, text, status, answer=NONE):
        self.assertEqual(self.library.print(requested, text, FRONT), (status, answer, b"#" * FRONT))

    def assertAsProgram(self, words, requested, text):
        """The library prints what the program does."""
        ran = ended([self.basinmug, *words], text)
        self.assertEqual(ran.returncode, 0, shown(ran.stderr))
        self.assertPrinted(requested, text, ran.stdout, int(b"wider" in ran.stderr))

    def test_records_as_the_program_prints_them(self):
        for text, _ in RECORDS:
            with self.subTest(shown(text.encode())):
                self.assertAsProgram([], printing(), text.encode())

    def test_numbers_beside_each_other_as_the_program_prints(self):
        """On some records."""
        seeded = random.Random(105)
        ways = itertools.product(range(6), range(3), range(3), (NO_WIDTH, 1, 12, 30, 80), (0, 1), (0, 1))
        for style, rules, escapes, width, truncate, all_columns in ways:
            if style == 5 and width != NO_WIDTH:
                continue
            priority, no_header, expanded = seeded.randrange(5), seeded.randrange(2), seeded.randrange(4) // 3
            rows, tail = (seeded.choice((NO_WIDTH, 0, 1, 9)) for _ in range(2))
            head = seeded.choice((0, 1, 2, 9)) if tail == NO_WIDTH else 0
            text, delimiter = seeded.choice(RECORDS)
            words = ["--style", PRINT_STYLES[style], "--rules", RULES[rules], "--escapes", ESCAPES[escapes], "--priority", PRIORITIES[priority]]
            words += ["--width", str(width)] * (width != NO_WIDTH) + ["--max-rows", str(rows)] * (rows != NO_WIDTH)
            words += ["--tail", str(tail)] * (tail != NO_WIDTH) + ["--head", str(head)] * (head != 0)
            words += ["--truncate"] * truncate + ["--all-columns"] * all_columns + ["--no-header"] * no_header + ["--expanded"] * expanded
            words += ["--delimiter", delimiter] * (delimiter is not None)
            requested = printing(
                style=style, rules=rules, escapes=escapes, width=width, truncate=truncate, all_columns=all_columns, priority=priority,
                no_header=no_header, expanded=expanded, max_rows=rows, tail=tail, head=head, delimiter=ord(delimiter or "\0"),
            )
            with self.subTest(f"{' '.join(words)} of {shown(text.encode())}"):
                self.assertAsProgram(words, requested, text.encode())

    def test_lists_as_the_program_takes_them(self):
        text = RECORDS[2][0].encode()
        for name, found in [
            ("columns", ["0", "2,0", "0-1", "note,name", "1,1"]),
            ("align", ["0=right", "price=center,0=left", "note=right"]),
            ("color", ["0=bold", "price=red,note=underline"]),
        ]:
            for it in found:
                with self.subTest(f"--{name} {it}"):
                    self.assertAsProgram([f"--{name}", it], printing(**{name: it.encode()}), text)

    def test_heads_as_the_program_reads_them(self):
        """What is below a head is not read, whatever it is."""
        for text in [
            b"a,b\n1,2\n3,4\n", b'a\n1\n"x\n', b"a\n1\n2\n\xff\n", b"sep=;\na;b\n1;2\n3;4\n", b"\xef\xbb\xbfa\n1\n2\n",
            b'"a\n",b\n"1\n",2\n\xff', b"a", b"",
        ]:
            for words, requested in (("", {}), ("--no-header", {"no_header": 1}), ("--max-rows 0", {"max_rows": 0})):
                with self.subTest(f"{words} of {shown(text)}"):
                    self.assertAsProgram(["--head", "1", *words.split()], printing(head=1, **requested), text)
        self.assertAsProgram([], printing(head=2 ** 64 - 1), b"a\n1\n2\n")
        self.assertNotPrinted(printing(head=2), b'a\n1\n"x\n', 10, (0, 0, 3, 0, 0, 0))

    def test_a_table_that_is_wider(self):
        ran = ended([self.basinmug, "--width", "1", "--all-columns"], RECORDS[1][0].encode())
        self.assertPrinted(printing(width=1, all_columns=1), RECORDS[1][0].encode(), ran.stdout, 1)

    def test_numbers_without_a_meaning_are_refused_before_the_text(self):
        great = 2 ** 32 - 1
        for what, status, values in [
            ("size", 33, (0, 128, 137, NO_WIDTH)),
            ("delimiter", 40, (10, 13, 34, 128, 256, great)),
            ("no_header", 41, (2, great)),
            ("style", 34, (6, great)),
            ("rules", 42, (3, great)),
            ("escapes", 43, (3, great)),
            ("truncate", 36, (2, great)),
            ("priority", 35, (5, great)),
            ("expanded", 44, (2, great)),
            ("all_columns", 48, (2, great)),
            ("reserved", 38, (1, great)),
        ]:
            for value in values:
                with self.subTest(f"{what} {value}"):
                    self.assertNotPrinted(printing(**{what: value}), NO_TEXT, status)
        self.assertNotPrinted(printing(style=5, width=80), NO_TEXT, 45)
        for tail in (0, 1, NO_WIDTH - 1):
            self.assertNotPrinted(printing(head=1, tail=tail), NO_TEXT, 50)
        for at in range(6):
            requested = printing()
            requested.reserved_words[at] = 1
            self.assertNotPrinted(requested, NO_TEXT, 38)
        self.assertNotPrinted(PrintOptions(), NO_TEXT, 33)

    def test_the_first_of_several_errors_is_reported(self):
        """In the order that the header says."""
        errors = [
            (33, {"size": 9}), (40, {"delimiter": 10}), (41, {"no_header": 2}), (34, {"style": 6}), (42, {"rules": 3}), (43, {"escapes": 3}),
            (36, {"truncate": 2}), (35, {"priority": 5}), (44, {"expanded": 2}), (48, {"all_columns": 2}), (45, {"style": 5, "width": 80}),
            (50, {"head": 1, "tail": 1}), (38, {"reserved": 1}),
        ]
        for at, (status, _) in enumerate(errors):
            with self.subTest(status):
                all_after = {}
                for _, values in reversed(errors[at:]):
                    all_after.update(values)
                self.assertNotPrinted(printing(**all_after), NO_TEXT, status)

    def test_lists_without_the_form_are_refused_in_their_order(self):
        bad = {"columns": b"3-1", "align": b"0=middle", "color": b"0=pink"}
        for at, status in enumerate((47, 46, 39)):
            with self.subTest(status):
                self.assertNotPrinted(printing(**dict(list(bad.items())[at:])), NO_TEXT, status)
        for name, status in (("columns", 47), ("align", 46), ("color", 39)):
            for it in (b"\xff", b"0=\xff", b","):
                with self.subTest(f"{name} {it}"):
                    self.assertNotPrinted(printing(**{name: it}), NO_TEXT, status)

    def test_errors_of_the_text_have_their_place(self):
        self.assertNotPrinted(printing(), b"a,b\n1,\xff\n", 1, (0, 0, 2, 2, 0, 0))
        self.assertNotPrinted(printing(escapes=1), b"a,b\n1,\x1b\n", 2, (0, 0, 2, 2, 0, 0))
        self.assertNotPrinted(printing(), b'a\n"b', 10, (0, 0, 2, 0, 0, 0))
        for name, it in (("columns", b"price"), ("align", b"price=left"), ("color", b"price=red"), ("columns", b"9")):
            with self.subTest(f"{name} {it}"):
                self.assertNotPrinted(printing(**{name: it}), b"a,b\n1,2\n", 11)

    def test_a_greatest_size(self):
        text = RECORDS[2][0].encode()
        wanted = ended([self.basinmug], text, check=True).stdout
        self.assertPrinted(printing(max_size=len(wanted)), text, wanted)
        for most in (0, 1, len(wanted) - 1):
            with self.subTest(most):
                status, answer, out = self.library.print(printing(max_size=most), text, len(wanted))
                self.assertEqual((status, answer), (13, NONE))
                self.assertSame(out[: most + 1], wanted[: most + 1])
                self.assertEqual(set(out[most + 1 :]), set(b"#") if most + 1 < len(wanted) else set())


class CellCalls(Calls):
    """Records as cells, as the program prints them once they are quoted."""

    @classmethod
    def setUpClass(cls):
        super().setUpClass()
        cls.basinmug = program("basinmug")

    rows = [[b"name", b"n"], [b'a "b"\nc', b"1,5"], [b"", b"22"], [b"\x1b[31mred\x1b[0m", b""]]

    def assertCells(self, requested, rows, words=()):
        text = b"".join(b",".join(b'"' + cell.replace(b'"', b'""') + b'"' for cell in row) + b"\n" for row in rows)
        wanted = ended([self.basinmug, "--delimiter", ",", *words], text, check=True).stdout
        self.assertOutput(lambda room: self.library.print_cells(requested, rows, room), wanted, (len(wanted), 0, 0, 0, 0, 0))

    def test_cells_as_the_program_prints_them(self):
        for rows in (self.rows, self.rows[:1], [], [[b"a"]] * 9, [[b"x", b"y", b"z"]]):
            with self.subTest(len(rows)):
                self.assertCells(printing(), rows)
        self.assertCells(printing(style=0, rules=1, width=12, color=b"n=red"), self.rows, ["--style", "ascii", "--rules", "all", "--width", "12", "--color", "n=red"])
        self.assertCells(printing(expanded=1), self.rows, ["--expanded"])

    def test_heads_of_cells(self):
        """What is below a head is not read, but for its lengths."""
        bad = [*self.rows[:2], [b"\xff", b"\x1b"]]
        for rows in (self.rows, bad, self.rows[:1]):
            self.assertCells(printing(head=1), rows, ["--head", "1"])
        self.assertCells(printing(head=2, no_header=1), bad, ["--head", "2", "--no-header"])
        self.assertCells(printing(head=NO_WIDTH), self.rows)
        self.assertEqual(self.library.print_cells(printing(head=2), bad, FRONT), (1, (0, 0, 0, 0, 2, 0), b"#" * FRONT))
        self.assertEqual(self.library.print_cells(printing(head=1), self.rows, FRONT, 3), (49, NONE, b"#" * FRONT))

    def test_lengths_that_are_not_those_of_records(self):
        for what, per_record, lengths in [
            ("a part of a record", 3, None),
            ("no columns", 0, None),
            ("too few bytes", 2, [4, 1, 7, 3, 0, 2, 12, 1]),
            ("too many bytes", 2, [4, 1, 7, 3, 0, 2, 11, 0]),
            ("a length past all", 2, [NO_WIDTH, 1, 7, 3, 0, 2, 12, 0]),
        ]:
            with self.subTest(what):
                self.assertEqual(self.library.print_cells(printing(), self.rows, FRONT, per_record, lengths), (49, NONE, b"#" * FRONT))

    def test_the_first_cell_with_an_error(self):
        for status, cell, requested in ((1, b"a\xff", printing()), (2, b"a\x1b", printing(escapes=1))):
            rows = [[b"a", b"b"], [b"c", cell], [cell, b"d"]]
            self.assertEqual(self.library.print_cells(requested, rows, FRONT), (status, (0, 0, 0, 0, 1, 1), b"#" * FRONT))


class Texts(Calls):
    """Widths of texts, and texts without their sequences."""

    def test_widths(self):
        for text, columns, _ in TEXTS:
            with self.subTest(f"{text[:20]!r}"):
                self.assertEqual(self.library.width(text.encode()), (0, (columns, 0, 0, 0)))

    def test_texts_that_are_stripped(self):
        for text, _, stripped in TEXTS:
            with self.subTest(f"{text[:20]!r}"):
                self.assertWritten(lambda room: self.library.strip(text.encode(), room), stripped.encode())

    def test_what_is_no_text_has_no_width_and_nothing_to_strip(self):
        for name, given, fault in REFUSED:
            if fault.startswith("not UTF-8"):
                with self.subTest(name):
                    wanted = (1, (0, int(fault.split()[-1]), 0, 0))
                    self.assertEqual(self.library.width(given), wanted)
                    self.assertEqual(self.library.strip(given, FRONT), (*wanted, b"#" * FRONT))

    def test_colours_and_sequences_add_no_column_and_are_all_stripped(self):
        for words, given, wanted in ASKED:
            if by_words(words) is not None:
                with self.subTest(f"the table of {words} of {given!r}"):
                    bare = re.sub("\x1b\\[[0-9;]*m", "", wanted).encode()
                    self.assertWritten(lambda room: self.library.strip(wanted.encode(), room), bare)
                    self.assertEqual(self.library.width(wanted.encode()), self.library.width(bare))


def first_in_readme():
    """The arguments of the first command that the README shows; its file is one of this repository."""
    return re.search(r"^    \$ basinmug (.*)$", read("README.md").decode(), re.M)[1].split()


def shown_in_readme():
    """The lines that the README shows for the same table, by language."""
    page = read("README.md").decode()
    page = page[page.index("## From C, Python and Rust"): page.index("## In Rattle")]
    return dict(re.findall(r"^```(\w+)\n(.*?)^```$", page, re.M | re.S))


class Built(Case):
    """The built files, and what is made of them in a folder. `program` is `basinmug`."""

    @classmethod
    def setUpClass(cls):
        built("lib")
        cls.program = program("basinmug")

    @classmethod
    def shared_folder(cls, prefix):
        """A folder for all tests of a class, removed after the last."""
        folder = tempfile.TemporaryDirectory(prefix=prefix)
        cls.addClassCleanup(folder.cleanup)
        return folder.name

    def setUp(self):
        folder = tempfile.TemporaryDirectory()
        self.addCleanup(folder.cleanup)
        self.folder = folder.name

    def assertWell(self, *words, **how):
        """A command ends well; what it wrote."""
        ran = ended(words, **how)
        self.assertEqual(ran.returncode, 0, f"{words[0]}: {shown(ran.stderr)}")
        return ran.stdout

    def assertReport(self, *words, **how):
        """This prints the first table of the README, as the program does."""
        wanted = ended([self.program, *first_in_readme()], cwd=ROOT, check=True).stdout
        self.assertIn(b"\x1b[31m12.25\x1b[39m", wanted)
        self.assertSame(self.assertWell(*words, **how), wanted)


class Names(Built):
    """What the library shows."""

    def test_the_version(self):
        self.assertEqual(ctypes.CDLL(SHARED).basinmug_version(), 100)

    @unittest.skipUnless(shutil.which("nm"), "no nm: the names of the library were not looked at")
    def test_no_other_name_than_those_of_the_header(self):
        wanted = sorted(set(re.findall(r"^uint32_t (basinmug_\w+)\(", read("include/basinmug.h").decode(), re.M)))
        for words, path in [(["-D", "--defined-only"], SHARED), (["-g", "--defined-only"], f"{LIB}/libbasinmug.a")]:
            with self.subTest(os.path.basename(path)):
                lines = self.assertWell("nm", *words, path).decode().splitlines()
                self.assertEqual(sorted(line.split()[2] for line in lines if len(line.split()) == 3), wanted)


@unittest.skipUnless(shutil.which("cc"), "no cc: the calls from C were not run")
class FromC(Built):
    """Programs in C and C++."""

    words = ["cc", "-std=c11", "-Wall", "-Wextra", "-pedantic", "-Werror", f"-I{ROOT}/include", "-L", LIB]
    calls = [f"{ROOT}/tests/clib/calls.c", "-pthread", f"{LIB}/libbasinmug.a", "-Wl,--wrap=malloc,--wrap=realloc"]

    def test_the_example_with_the_archive_alone(self):
        self.assertWell(*self.words, "-o", f"{self.folder}/report", f"{ROOT}/examples/c/report.c", f"{LIB}/libbasinmug.a")
        self.assertReport(f"{self.folder}/report")

    def test_the_example_with_the_shared_object(self):
        self.assertWell(*self.words, "-o", f"{self.folder}/report", f"{ROOT}/examples/c/report.c", "-lbasinmug")
        self.assertReport(f"{self.folder}/report", env=environment(LD_LIBRARY_PATH=LIB))

    def test_calls(self):
        """Also in a stack that is no larger than the header wants, which threads have then too."""
        self.assertWell(*self.words, "-o", f"{self.folder}/calls", *self.calls)
        self.assertWell(f"{self.folder}/calls")
        self.assertWell(f"{self.folder}/calls", preexec_fn=limited(STACK=STACK))

    def test_calls_under_the_address_sanitizer(self):
        ran = ended([*self.words, "-fsanitize=address,undefined", "-g", "-o", f"{self.folder}/calls", *self.calls])
        if ran.returncode:
            self.skipTest(f"no address sanitizer: {shown(ran.stderr)}")
        self.assertWell(f"{self.folder}/calls")

    @unittest.skipUnless(shutil.which("c++"), "no c++: the example in C++ was not run")
    def test_the_example_in_cpp(self):
        words = ["c++", "-std=c++11", "-Wall", "-Wextra", "-pedantic", "-Werror", f"-I{ROOT}/include"]
        self.assertWell(*words, "-o", f"{self.folder}/report", f"{ROOT}/examples/cpp/report.cc", f"{LIB}/libbasinmug.a")
        self.assertReport(f"{self.folder}/report")


class Page(Built):
    """The README: what it shows in C prints its first table."""

    def test_the_page_has_three_languages(self):
        self.assertEqual(sorted(shown_in_readme()), ["c", "python", "rust"])

    @unittest.skipUnless(shutil.which("cc"), "no cc: the lines in C were not run")
    def test_the_lines_in_c(self):
        before = "static char text[4096], table[8192];\nsize_t size = fread(text, 1, sizeof text, stdin);\n"
        whole = f"#include <basinmug.h>\n#include <stdio.h>\n#include <string.h>\nint main(void) {{\n{before}{shown_in_readme()['c']}return 0;\n}}\n"
        with open(f"{self.folder}/page.c", "w", encoding="utf-8") as it:
            it.write(whole)
        self.assertWell(*FromC.words, "-o", f"{self.folder}/page", f"{self.folder}/page.c", f"{LIB}/libbasinmug.a")
        self.assertReport(f"{self.folder}/page", given=read("examples/notes.csv"))


class Installed(Built):
    """What `make install-library` puts into a folder, and that pkg-config finds it there."""

    def setUp(self):
        super().setUp()
        self.prefix = f"{self.folder}/prefix"
        self.assertWell("make", "-s", "install-library", f"PREFIX={self.prefix}", cwd=ROOT)

    def test_the_files(self):
        files = sorted(os.path.relpath(f"{at}/{name}", self.prefix) for at, _, names in os.walk(self.prefix) for name in names)
        self.assertEqual(files, ["include/basinmug.h", "lib/libbasinmug.a", "lib/libbasinmug.so", "lib/libbasinmug.so.0", "lib/pkgconfig/basinmug.pc"])

    @unittest.skipUnless(shutil.which("pkg-config") and shutil.which("cc"), "no pkg-config or no cc: basinmug.pc was not used")
    def test_the_example_by_pkg_config(self):
        found = environment(PKG_CONFIG_PATH=f"{self.prefix}/lib/pkgconfig", LD_LIBRARY_PATH=f"{self.prefix}/lib")
        flags = self.assertWell("pkg-config", "--cflags", "--libs", "basinmug", env=found).decode().split()
        self.assertWell("cc", "-o", f"{self.folder}/found", f"{ROOT}/examples/c/report.c", *flags)
        self.assertReport(f"{self.folder}/found", env=found)

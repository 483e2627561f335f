"""Tests of the package `basinmug`: `BASINMUG_LIBRARY=lib/libbasinmug.so.0 python3 -m unittest discover bindings/python`."""
import collections
import contextlib
import dataclasses
import fcntl
import io
import itertools
import os
import pty
import struct
import sys
import termios
import time
import tty
import typing
import unittest
from unittest import mock

import basinmug
from basinmug import csv, strip, table, width


def lines(*found):
    """These lines, each with its end."""
    return "".join(line + "\n" for line in found)


TWO_BY_TWO = lines("╭───┬───╮", "│ a │ b │", "├───┼───┤", "│ 1 │ 2 │", "╰───┴───╯")
RED = lines("╭───┬───╮", "│ a │ \x1b[31mb\x1b[39m │", "╰───┴───╯")
CODES = [(30, 39), (31, 39), (32, 39), (33, 39), (34, 39), (35, 39), (36, 39), (37, 39), (1, 22), (4, 24)]


@dataclasses.dataclass
class Pair:
    a: int
    b: object = None


class Rows(unittest.TestCase):
    """Rows as callers have them."""

    def test_rows_of_all_kinds_have_one_table(self):
        pairs = [["x", "y"], [1, 2]]
        wanted = lines("╭───┬───╮", "│ x │ y │", "│ 1 │ 2 │", "╰───┴───╯")
        for rows in (pairs, tuple(map(tuple, pairs)), (iter(row) for row in pairs), dict(enumerate(pairs)).values()):
            with self.subTest(type(rows)):
                self.assertEqual(table(rows), wanted)

    def test_headers_are_above_a_line(self):
        for headers in (["a", "b"], ("a", "b"), (it for it in "ab")):
            with self.subTest(type(headers)):
                self.assertEqual(table([[1, 2]], headers), TWO_BY_TWO)
        self.assertEqual(table([], ["a"]), lines("╭───╮", "│ a │", "╰───╯"))
        self.assertEqual(table([], headers=["a", None, 7]), lines("╭───┬──┬───╮", "│ a │  │ 7 │", "╰───┴──┴───╯"))

    def test_names_are_headers(self):
        for row in ({"a": 1, "b": 2}, Pair(1, 2), collections.OrderedDict(a=1, b=2)):
            with self.subTest(type(row)):
                self.assertEqual(table([row]), TWO_BY_TWO)
                self.assertEqual(table(iter([row]), headers=["b", "a"]), table([[2, 1]], ["b", "a"]))

    def test_a_name_that_a_row_lacks_is_an_empty_cell(self):
        self.assertEqual(table([{"a": 1}, {"b": 2}]), table([[1, ""], ["", 2]], ["a", "b"]))

    def test_a_cell_is_what_str_says_and_none_is_empty(self):
        self.assertEqual(table([[None, 1.5, True]]), lines("╭──┬─────┬──────╮", "│  │ 1.5 │ True │", "╰──┴─────┴──────╯"))
        self.assertEqual(table([Pair(1)]), lines("╭───┬───╮", "│ a │ b │", "├───┼───┤", "│ 1 │   │", "╰───┴───╯"))

    def test_no_rows_have_an_empty_table(self):
        for rows in ([], iter(()), [[], []], [{}]):
            self.assertEqual(table(rows), "")
        self.assertEqual(table([], []), "")

    def test_short_rows_and_headers_are_filled(self):
        self.assertEqual(table([["x", "y"], ["z"]]), lines("╭───┬───╮", "│ x │ y │", "│ z │   │", "╰───┴───╯"))
        self.assertEqual(table([["x", "y"]], ["a"]), lines("╭───┬───╮", "│ a │   │", "├───┼───┤", "│ x │ y │", "╰───┴───╯"))

    def test_rows_of_a_caller_stay(self):
        rows, headers = [["x", "y"], ["z"]], ["a"]
        table(rows, headers)
        self.assertEqual((rows, headers), ([["x", "y"], ["z"]], ["a"]))

    def test_cells_with_line_feeds_tabs_and_quotes(self):
        self.assertEqual(
            table([['a\n"b"', "c\td"], ["\x07", "e"]]),
            lines("╭─────┬────────╮", "│ a   │ c    d │", '│ "b" │        │', "│ ␇   │ e      │", "╰─────┴────────╯"),
        )

    def test_numbers_are_at_the_right(self):
        self.assertEqual(
            table([{"n": 5, "t": "x"}, {"n": -1234.5, "t": "7"}]),
            lines("╭─────────┬───╮", "│       n │ t │", "├─────────┼───┤", "│       5 │ x │", "│ -1234.5 │ 7 │", "╰─────────┴───╯"),
        )


class Options(unittest.TestCase):
    def test_a_width_wraps_or_cuts(self):
        self.assertEqual(table([["12 34 56"]], width=6), lines("╭────╮", "│ 12 │", "│ 34 │", "│ 56 │", "╰────╯"))
        self.assertEqual(table([["12 34 56"]], width=6, truncate=True), lines("╭────╮", "│ 1… │", "╰────╯"))

    def test_which_column_gives_first(self):
        rows = [["a" * 9, "b" * 14]]
        widths = {
            priority: [len(it) - 2 for it in table(rows, width=21, priority=priority, all_columns=True).splitlines()[0][1:-1].split("┬")]
            for priority in basinmug.PRIORITIES
        }
        self.assertEqual(widths, {"none": [4, 10], "min": [2, 12], "max": [7, 7], "left": [2, 12], "right": [9, 5]})

    def test_each_style(self):
        for style, wanted in [
            ("ascii", ["+---+---+", "| a | b |", "+---+---+", "| 1 | 2 |", "+---+---+"]),
            ("modern", ["┌───┬───┐", "│ a │ b │", "├───┼───┤", "│ 1 │ 2 │", "└───┴───┘"]),
            ("extended", ["╔═══╦═══╗", "║ a ║ b ║", "╠═══╬═══╣", "║ 1 ║ 2 ║", "╚═══╩═══╝"]),
            ("empty", [" a  b ", " 1  2 "]),
            ("rounded", TWO_BY_TWO.splitlines()),
            ("markdown", ["| a | b |", "|--:|--:|", "| 1 | 2 |"]),
        ]:
            with self.subTest(style):
                self.assertEqual(table([[1, 2]], ["a", "b"], style=style), lines(*wanted))

    def test_rules(self):
        rows = [[1], [2]]
        self.assertEqual(table(rows, ["a"], rules="all"), lines("╭───╮", "│ a │", "├───┤", "│ 1 │", "├───┤", "│ 2 │", "╰───╯"))
        self.assertEqual(table(rows, ["a"], rules="none"), lines("╭───╮", "│ a │", "│ 1 │", "│ 2 │", "╰───╯"))

    def test_alignments(self):
        rows = [{"n": 1, "t": "x", "u": "y"}, {"n": 100, "t": "long", "u": "more"}]
        wanted = lines(
            "╭─────┬──────┬──────╮",
            "│ n   │    t │  u   │",
            "├─────┼──────┼──────┤",
            "│ 1   │    x │  y   │",
            "│ 100 │ long │ more │",
            "╰─────┴──────┴──────╯",
        )
        for align in ({"n": "left", "t": "right", "u": "center"}, {0: "left", 1: "right", 2: "center"}, "0=left,t=right,u=center"):
            with self.subTest(align):
                self.assertEqual(table(rows, align=align), wanted)

    def test_colours(self):
        for color in ({1: "red"}, {"b": "red"}, "1=red", "b=red", {1: "red", 7: "blue"}):
            with self.subTest(color):
                self.assertEqual(table([], ["a", "b"], color=color), RED)
        for color in (None, {}, ""):
            self.assertEqual(table([[1, 2]], ["a", "b"], color=color), TWO_BY_TWO)
        for name, (start, end) in zip(basinmug.COLORS, CODES):
            with self.subTest(name):
                self.assertEqual(table([["x"]], color={0: name}, style="empty"), f" \x1b[{start}mx\x1b[{end}m \n")

    def test_a_header_is_that_of_the_first_column_that_has_it(self):
        bold = "\x1b[1ma\x1b[0m"
        for headers, name, number in (
            (["a", "b", "a"], "a", 0), ([bold, "b", bold], bold, 0), ([bold, "b", bold], "a", 0), ([bold, "a", "a"], "a", 1),
        ):
            with self.subTest((headers, name)):
                self.assertEqual(table([], headers, color={name: "red"}), table([], headers, color={number: "red"}))

    def test_many_headers_that_are_named_take_no_long_time(self):
        many, took = 2000, []
        for columns in (range(many), map(str, range(many))):
            names = [*columns]
            began = time.process_time()
            took.append((table(
                [], [f"\x1b[1m{it}\x1b[0m" for it in range(many)], align=dict.fromkeys(names, "center"), color=dict.fromkeys(names, "red"),
            ), time.process_time() - began))
        (numbered, least), (named, most) = took
        self.assertEqual(named, numbered)
        self.assertLess(most, 2 * least + 1)

    def test_any_text_may_be_a_header(self):
        for header in ("2024", "a,b", "a=b", "0-1", "", "\x1b[1mbold\x1b[0m"):
            with self.subTest(header):
                self.assertEqual(table([], ["x", header], color={header: "red"}), table([], ["x", header], color={1: "red"}))
                self.assertEqual(table([["u", "v"]], ["x", header], columns=[header]), table([["v"]], [header]))
        self.assertEqual(table([], ["x", "\x1b[1mb\x1b[0m"], color={"b": "red"}), table([], ["x", "\x1b[1mb\x1b[0m"], color={1: "red"}))

    def test_of_a_number_and_a_header_the_last_decides(self):
        self.assertEqual(table([], ["a", "b"], color={"b": "blue", 1: "red"}), RED)

    def test_columns(self):
        rows = [["p", "q", "r", "s"]]
        for columns, wanted in [
            ("2,0", ["r", "p"]),
            ("1-3", ["q", "r", "s"]),
            ([2, 0], ["r", "p"]),
            ((it for it in (1, 1)), ["q", "q"]),
            ([range(1, 4), 0], ["q", "r", "s", "p"]),
        ]:
            with self.subTest(columns):
                self.assertEqual(table(rows, columns=columns), table([wanted]))
        self.assertEqual(table(rows, list("abcd"), columns=["d", 0]), table([["s", "p"]], ["d", "a"]))

    def test_columns_that_do_not_fit(self):
        rows = [["long text"] * 9]
        self.assertTrue(table(rows, width=40).endswith("(3 of 9 columns)\n"))
        self.assertNotIn("columns", table(rows, width=40, all_columns=True))

    def test_how_many_rows(self):
        rows = [[it] for it in "pqrst"]
        self.assertEqual(table(rows, max_rows=2), lines("╭───╮", "│ p │", "│ q │", "╰───╯", "(3 more rows)"))
        self.assertEqual(table(rows, tail=2), lines("╭───╮", "│ s │", "│ t │", "╰───╯", "(3 earlier rows)"))
        self.assertEqual(table(rows, max_rows=1, tail=1), lines("╭───╮", "│ p │", "│ … │", "│ t │", "╰───╯", "(3 rows left out)"))
        self.assertEqual(table(rows, ["a"], head=2), table(rows[:2], ["a"]))
        self.assertEqual(table(rows, ["a"], head=0), table([], ["a"]))

    def test_a_head_reads_no_more_of_a_generator(self):
        numbers = itertools.count()
        self.assertEqual(table(([it] for it in numbers), head=3), table([[0], [1], [2]]))
        self.assertEqual(next(numbers), 3)

    def test_expanded(self):
        self.assertEqual(table([{"a": 1, "name": "x\ny"}], expanded=True), lines("-[ RECORD 0 ]-", "a    | 1", "name | x", "     | y"))

    def test_escapes(self):
        cell = "\x1b[31mx\x1b]0;t\x07"
        self.assertEqual(table([[cell]], style="empty"), " \x1b[31mx␛]0;t␇\x1b[39m \n")
        self.assertEqual(table([[cell]], style="empty", escapes="none"), " ␛[31mx␛]0;t␇ \n")
        self.assertIn("\x1b]0;t\x07", table([[cell]], style="empty", escapes="all"))

    def test_a_greatest_size(self):
        size = len(TWO_BY_TWO.encode())
        self.assertEqual(table([[1, 2]], ["a", "b"], max_size=size), TWO_BY_TWO)
        for less in (size - 1, 1, 0):
            with self.subTest(less), self.assertRaises(basinmug.OverMaxSize):
                table([[1, 2]], ["a", "b"], max_size=less)

    def test_a_table_of_many_times_its_cells(self):
        rows = [["x" * 2000], *[[""]] * 500]
        self.assertEqual(table(rows), lines("╭" + "─" * 2002 + "╮", "│ " + "x" * 2000 + " │", *["│" + " " * 2002 + "│"] * 500, "╰" + "─" * 2002 + "╯"))


class Texts(unittest.TestCase):
    """CSV and other delimited text."""

    def test_a_text_and_its_bytes(self):
        for text in ("a,b\n1,2\n", b"a,b\n1,2\n", "a;b\n1;2", "a\tb\n1\t2\n", "sep=|\na|b\n1|2\n", bytearray(b"a,b\n1,2\n")):
            with self.subTest(text):
                self.assertEqual(csv(text), TWO_BY_TWO)

    def test_quotes(self):
        self.assertEqual(csv('a\n"x, ""y""\nz"\n'), table([['x, "y"\nz']], ["a"]))

    def test_a_delimiter_and_no_header(self):
        self.assertEqual(csv("a:b,c\n", delimiter=":", header=False), table([["a", "b,c"]]))
        self.assertEqual(csv("a,b\tc\n", delimiter="\t"), table([], ["a,b", "c"]))
        for bad in ("", "ab", '"', "\n", "\r", "é", "\0", 7):
            with self.subTest(bad), self.assertRaises(basinmug.BadOption):
                csv("a", delimiter=bad)

    def test_options_are_those_of_rows(self):
        text, rows, headers = "a,b\nx y,1\nz,2\n", [["x y", 1], ["z", 2]], ["a", "b"]
        for asked in (
            {"width": 9}, {"width": 8, "truncate": True}, {"align": {"b": "left"}}, {"color": {"a": "bold", 1: "red"}}, {"style": "ascii"},
            {"columns": ["b", 0]}, {"rules": "all"}, {"max_rows": 1}, {"tail": 1}, {"expanded": True}, {"escapes": "none"},
        ):
            with self.subTest(asked):
                self.assertEqual(csv(text, **asked), table(rows, headers, **asked))

    def test_a_head(self):
        self.assertEqual(csv("a\n1\n2\n", head=1), csv("a\n1\n"))
        self.assertEqual(csv(b"a\n1\n\xff\n", head=1, header=False), table([["a"]]))

    def test_names_that_a_list_cannot_have(self):
        for name in ("2024", "a,b", "a=b", ""):
            with self.subTest(name), self.assertRaises(basinmug.BadOption):
                csv("a\n", color={name: "red"})


class Terminal:
    """A terminal of so many columns, as a file whose text is kept."""

    def __init__(self, columns):
        self.master, slave = pty.openpty()
        tty.setraw(slave)
        fcntl.ioctl(slave, termios.TIOCSWINSZ, struct.pack("HHHH", 24, columns, 0, 0))
        self.file = os.fdopen(slave, "w", encoding="utf-8")
        self.fileno, self.isatty, self.write = self.file.fileno, self.file.isatty, self.file.write

    def __enter__(self):
        return self

    def __exit__(self, *_):
        self.file.close()
        os.close(self.master)

    def getvalue(self):
        """All that is written, up to its end: the file is closed."""
        self.file.close()
        wrote = b""
        with contextlib.suppress(OSError):
            while True:
                wrote += os.read(self.master, 1 << 16)
        return wrote.decode("utf-8")


class Prints(unittest.TestCase):
    """What `print` writes, by what the environment says."""

    def printed(self, rows, terminal=None, env=(), **asked):
        """What it writes to a file, or to a terminal of so many columns."""
        kept = {name: value for name, value in os.environ.items() if name not in ("COLUMNS", "NO_COLOR")}
        with mock.patch.dict(os.environ, {**kept, **dict(env)}, clear=True), io.StringIO() if terminal is None else Terminal(terminal) as file:
            basinmug.print(rows, file=file, **asked)
            return file.getvalue()

    def test_a_file_has_the_whole_table(self):
        self.assertEqual(self.printed([["12 34"]]), table([["12 34"]]))
        self.assertEqual(self.printed([[1, 2]], headers=["a", "b"]), TWO_BY_TWO)

    def test_a_terminal_has_a_width(self):
        narrow = lines("╭────╮", "│ 12 │", "│ 34 │", "╰────╯")
        self.assertEqual(self.printed([["12 34"]], terminal=6), narrow)
        self.assertEqual(self.printed([["12 34"]], terminal=60, env={"COLUMNS": "6"}), narrow)
        self.assertEqual(self.printed([["12 34"]], env={"COLUMNS": "6"}), narrow)
        self.assertEqual(self.printed([["12 34"]], env={"COLUMNS": "06"}), narrow)
        self.assertEqual(self.printed([["12 34"]], env={"COLUMNS": "60"}, width=6), narrow)

    def test_the_terminal_is_the_file_and_not_standard_output(self):
        whole = table([["12 34"]])
        with Terminal(6) as out, mock.patch.object(sys, "stdout", out), mock.patch.object(sys, "__stdout__", out):
            self.assertEqual(self.printed([["12 34"]]), whole)
            self.assertEqual(self.printed([["12 34"]], terminal=60), whole)
            self.assertEqual(self.printed([["12 34"]], terminal=6), table([["12 34"]], width=6))

    def test_what_says_no_width(self):
        for said in ("0", "", "-6", "6x", " 6", "6\n", "٦", "4294967296", "9" * 5000):
            with self.subTest(said):
                self.assertEqual(self.printed([["12 34"]], env={"COLUMNS": said}), table([["12 34"]]))
                self.assertEqual(self.printed([["12 34"]], terminal=6, env={"COLUMNS": said}), table([["12 34"]], width=6))
        self.assertEqual(self.printed([["12 34"]], terminal=0), table([["12 34"]]))
        self.assertEqual(self.printed([["12 34"]], env={"COLUMNS": "6"}, style="markdown"), table([["12 34"]], style="markdown"))

    def test_what_has_no_number_has_no_size(self):
        for number in (None, -1):
            with self.subTest(number), io.StringIO() as file, mock.patch.dict(os.environ):
                os.environ.pop("COLUMNS", None)
                file.isatty = lambda: True
                if number:
                    file.fileno = lambda: number
                basinmug.print([["12 34"]], file=file)
                self.assertEqual(file.getvalue(), table([["12 34"]]))

    def test_a_file_gets_all_columns_and_a_terminal_those_that_fit(self):
        rows = [["long text"] * 9]
        self.assertEqual(self.printed(rows, env={"COLUMNS": "40"}), table(rows, width=40, all_columns=True))
        for how in ({"terminal": 60, "env": {"COLUMNS": "40"}}, {"terminal": 40}, {"width": 40}):
            self.assertEqual(self.printed(rows, **how), table(rows, width=40))
        self.assertEqual(self.printed(rows, width=40, all_columns=True), table(rows, width=40, all_columns=True))

    def test_no_color_leaves_colours_out(self):
        rows = [["a", "b"]]
        self.assertEqual(self.printed(rows, color={1: "red"}), RED)
        self.assertEqual(self.printed(rows, color={1: "red"}, env={"NO_COLOR": ""}), RED)
        self.assertEqual(self.printed([["a", "\x1b[32mb\x1b[0m"]], color={0: "red"}, env={"NO_COLOR": "1"}), strip(RED))

    def test_standard_output_is_the_file_where_none_is_given(self):
        with contextlib.redirect_stdout(io.StringIO()) as out, mock.patch.dict(os.environ):
            os.environ.pop("COLUMNS", None)
            basinmug.print([[1, 2]], ["a", "b"])
        self.assertEqual(out.getvalue(), TWO_BY_TWO)

    def test_a_star_import_keeps_what_python_has(self):
        names = {}
        exec("from basinmug import *", names)
        self.assertFalse({"print", "csv"} & {*names})
        self.assertIs(names["table"], table)

    def test_options_are_those_of_table(self):
        found = [{*call.__kwdefaults__.items()} for call in (table, basinmug.print, csv)]
        self.assertEqual(found[0], found[1] - {("file", None)})
        self.assertEqual(found[0], found[2] - {("delimiter", None), ("header", True)})


class Widths(unittest.TestCase):
    def test_a_text_has_a_width(self):
        for text, columns in (("", 0), ("ab", 2), ("表 한", 5), ("\x1b[1ma\nbcd\x1b[0m", 3)):
            with self.subTest(text):
                self.assertEqual(width(text), columns)

    def test_a_text_is_stripped(self):
        for text, stripped in (("", ""), ("ab", "ab"), ("\x1b[31mréd\x1b[0m", "réd")):
            with self.subTest(text):
                self.assertEqual(strip(text), stripped)


class Errors(unittest.TestCase):
    """Each error, with its place and its text."""

    def assertRaisesAt(self, kind, text, call, **place):
        """A call raises an error of this very kind, with this text and place."""
        with self.assertRaises(basinmug.TableError) as raised:
            call()
        found = raised.exception
        self.assertEqual((type(found), str(found)), (kind, text))
        self.assertEqual({name: getattr(found, name) for name in place}, place)

    def test_a_lone_surrogate_has_no_width(self):
        for call in (width, strip):
            with self.subTest(call):
                self.assertRaisesAt(basinmug.NotUtf8, "not UTF-8 at byte 1", lambda: call("a\ud800"), byte=1, row=None, column=None)

    def test_a_lone_surrogate_is_not_utf8(self):
        rows = [["a", "b"], ["c", "d\ud800"]]
        self.assertRaisesAt(basinmug.NotUtf8, "not UTF-8 in row 1, column 1", lambda: table(rows), row=1, column=1)
        self.assertRaisesAt(basinmug.NotUtf8, "not UTF-8 in row 1, column 1", lambda: table(rows, ["x"]), row=1, column=1)
        self.assertRaisesAt(basinmug.NotUtf8, "not UTF-8 in header 1", lambda: table(rows, ["x", "\udfff"]), row=None, column=1)
        self.assertRaisesAt(basinmug.NotUtf8, "not UTF-8 in row 0, column 0", lambda: table([{"a": "\ud800"}]), row=0, column=0)

    def test_a_broken_escape_where_all_sequences_stay(self):
        rows = [["a", "b"], ["c", "\x1b[31"]]
        self.assertIn("␛[31", table(rows))
        self.assertRaisesAt(basinmug.BrokenEscape, "broken escape in row 1, column 1", lambda: table(rows, escapes="all"), row=1, column=1)
        self.assertRaisesAt(basinmug.BrokenEscape, "broken escape in header 0", lambda: table(rows, ["\x1b"], escapes="all"), row=None, column=0)

    def test_errors_of_a_text(self):
        self.assertRaisesAt(basinmug.NotUtf8, "not UTF-8 in line 2, field 2", lambda: csv(b"a,b\n1,\xff\n"), line=2, field=2, row=None)
        self.assertRaisesAt(basinmug.NotUtf8, "not UTF-8 in line 1, field 1", lambda: csv("\ud800"), line=1, field=1)
        self.assertRaisesAt(basinmug.BrokenEscape, "broken escape in line 1, field 2", lambda: csv("a,\x1b", escapes="all"), line=1, field=2)
        self.assertRaisesAt(basinmug.OpenQuote, "a quote that is not closed in line 2", lambda: csv('a\n"b'), line=2)

    def test_lists_without_the_form(self):
        colors = "black, red, green, yellow, blue, magenta, cyan, white, bold, underline"
        self.assertRaisesAt(basinmug.BadColor, f"no colour is called 'pink': {colors}", lambda: table([["a"]], color={0: "pink"}))
        self.assertRaisesAt(basinmug.BadAlign, "no alignment is called 'top': left, center, right", lambda: table([["a"]], align={0: "top"}))
        self.assertRaisesAt(basinmug.BadColumns, "no columns are given", lambda: table([["a"]], columns=[]))
        for bad in ("0", "0=pink", "0=red,0=bold", ",", "0=\ud800"):
            with self.subTest(bad):
                self.assertRaisesAt(basinmug.BadColor, "the list of colours is malformed", lambda: table([["a"]], color=bad))
                self.assertRaisesAt(basinmug.BadAlign, "the list of alignments is malformed", lambda: table([["a"]], align=bad))
        for bad in ("3-1", ",", "\ud800"):
            with self.subTest(bad):
                self.assertRaisesAt(basinmug.BadColumns, "the list of columns is malformed", lambda: table([["a"]], columns=bad))
        for bad in (-1, 2 ** 32):
            with self.subTest(bad):
                self.assertRaisesAt(basinmug.BadOption, f"no number of a column: {bad}", lambda: table([["a"]], color={bad: "red"}))

    def test_columns_that_there_are_not(self):
        for headers in (None, ["b"]):
            with self.subTest(headers):
                for asked in ({"color": {"a": "red"}}, {"align": {"a": "left"}}, {"columns": ["a"]}):
                    self.assertRaisesAt(basinmug.NoColumn, "no column has the header 'a'", lambda: table([["a"]], headers, **asked), column="a")
        text = "columns, align or color names a column that there is not"
        for asked in ({"color": "a=red"}, {"align": "a=left"}, {"columns": "a"}, {"columns": [1]}):
            with self.subTest(asked):
                self.assertRaisesAt(basinmug.NoColumn, text, lambda: table([["x"]], ["b"], **asked), column=None)
        self.assertRaisesAt(basinmug.NoColumn, text, lambda: csv("b\n", color={"a": "red"}), column=None)

    def test_what_is_no_row(self):
        self.assertRaisesAt(basinmug.BadRow, "row 1 is no row of cells: 'ab'", lambda: table([["a"], "ab"]), row=1)
        self.assertRaisesAt(basinmug.BadRow, "row 0 is no row of cells: 7", lambda: table([7]), row=0)
        self.assertRaisesAt(basinmug.BadRow, "row 1 has no names, and others have", lambda: table([{"a": 1}, ["b"]]), row=1)
        for rows, kind in (({"a": [1]}, "dict"), (7, "int"), ("a", "str: `csv` takes a text"), (b"a", "bytes: `csv` takes a text")):
            with self.subTest(kind):
                self.assertRaisesAt(basinmug.BadRow, f"rows are several rows, and not {kind}", lambda: table(rows), row=None)

    def test_headers_that_are_none(self):
        self.assertRaisesAt(basinmug.BadOption, "headers are several names: 'ab'", lambda: table([], "ab"))
        self.assertRaisesAt(basinmug.BadOption, "headers are several names: 7", lambda: table([], 7))
        self.assertRaisesAt(basinmug.BadOption, "no row has the name 'b'", lambda: table([{"a": 1}], ["a", "b"]))

    def test_options_without_such_a_value(self):
        for bad in (
            {"style": "round"}, {"priority": "first"}, {"rules": "some"}, {"escapes": "few"}, {"style": None}, {"style": ["ascii"]},
            {"style": "markdown", "width": 80}, {"head": 1, "tail": 1},
            *({name: value} for name in ("width", "max_rows", "tail", "head", "max_size") for value in (-1, 2 ** 64 - 1, 1.5, "1")),
        ):
            for call in (lambda **asked: table([["a"]], **asked), lambda **asked: csv("a", **asked)):
                with self.subTest(bad), self.assertRaises(basinmug.BadOption):
                    call(**bad)
        with self.assertRaises(basinmug.BadOption):
            csv("a", head=0)

    def test_errors_are_those_of_python_too(self):
        for kind, of in (
            (basinmug.BadOption, ValueError), (basinmug.BadRow, TypeError), (basinmug.OutOfMemory, MemoryError), (basinmug.NoColumn, LookupError),
            (basinmug.NotUtf8, ValueError), (basinmug.OutOfRange, OverflowError),
        ):
            self.assertTrue(issubclass(kind, of) and issubclass(kind, basinmug.TableError))

    def test_an_error_of_a_cell_is_the_callers(self):
        class Bad:
            def __str__(self):
                raise ZeroDivisionError

        with self.assertRaises(ZeroDivisionError):
            table([[Bad()]])


class Types(unittest.TestCase):
    def test_each_call_has_types(self):
        for call in (table, basinmug.print, csv, width, strip):
            with self.subTest(call.__name__):
                names = {*call.__code__.co_varnames[: call.__code__.co_argcount + call.__code__.co_kwonlyargcount], "return"}
                self.assertEqual({*typing.get_type_hints(call)}, names)

    def test_the_version_is_that_of_the_library(self):
        number = basinmug._library._library.basinmug_version()
        self.assertEqual(basinmug.__version__, f"{number // 10000}.{number // 100 % 100}.{number % 100}")


if __name__ == "__main__":
    unittest.main()

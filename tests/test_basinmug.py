"""Runs the built program `basinmug` on files, on standard input, and on real streams.

Each test states the exit status, every byte of standard output and every byte of standard error; the tables are
written by hand. A run that a signal ends, or that takes too long, fails. COLUMNS is in the environment only where
a test puts it there. TEST_BASINMUG may name another program.
"""
import os
import pty
import re
import shutil
import subprocess
import sys
import tempfile
import time
import unicodedata
import unittest

import streams
from common import ROOT, SECONDS, Case, called, ended, environment, launched, manual_examples, other_program, program, read
from test_words import calls

AB = "a,b\n1,2\n"
AB_TABLE = """\
╭───┬───╮
│ a │ b │
├───┼───┤
│ 1 │ 2 │
╰───┴───╯
"""
SIZES = "name,size\nlog,42\nx,1000\n"
FIVE = "name,n\na,1\nb,22\nc,3\nd,4\ne,5\n"
FIVE_TABLE = """\
╭──────┬────╮
│ name │  n │
├──────┼────┤
│ a    │  1 │
│ b    │ 22 │
│ c    │  3 │
│ d    │  4 │
│ e    │  5 │
╰──────┴────╯
"""
NOTES = """\
id,date,author,note,hours
1,2026-11-02,Ada Lovelace,"The analytical engine weaves algebraical patterns just as the Jacquard loom weaves flowers and leaves.",3.5
2,2026-11-03,Grace Hopper,"Found a moth in relay 70 of panel F; taped it into the log book, first actual case of a bug being found.",12
3,2026-11-04,Edsger W. Dijkstra,ok,0.25
"""

TABS = AB.replace(",", "\t").encode()

# Arguments, a text in CSV, and its table. Each is read from a file whose name ends in .csv, and again from standard
# input with a comma as the delimiter.
TABLES = [
    ("", AB, AB_TABLE),
    ("", "a,b\n1,2", AB_TABLE),
    ("", "a,b\r\n1,2\r\n", AB_TABLE),
    ("", "\ufeffa,b\n1,2\n", AB_TABLE),
    ("", "a,b\n\n1,2\n\n", AB_TABLE),
    ("", '"a","b"\n"1","2"\n', AB_TABLE),
    ("", "", ""),
    ("", "a,b\n", """\
╭───┬───╮
│ a │ b │
╰───┴───╯
"""),
    # Columns of numbers are at the right, the header too.
    ("", SIZES, """\
╭──────┬──────╮
│ name │ size │
├──────┼──────┤
│ log  │   42 │
│ x    │ 1000 │
╰──────┴──────╯
"""),
    ("", "n,m\n1000,a1\n-3,b\n", """\
╭──────┬────╮
│    n │ m  │
├──────┼────┤
│ 1000 │ a1 │
│   -3 │ b  │
╰──────┴────╯
"""),
    # A short record is filled, and one that is longer than the header fills the others.
    ("", "a,b,c\nx\ny,z\np,q,r,s\n", """\
╭───┬───┬───┬───╮
│ a │ b │ c │   │
├───┼───┼───┼───┤
│ x │   │   │   │
│ y │ z │   │   │
│ p │ q │ r │ s │
╰───┴───┴───┴───╯
"""),
    # Quotes, delimiters and line feeds in quotes.
    ("", 'id,name,quote\n1,"Smith, John","He said ""stop"" and left"\n2,O\'Brien,"line one\nline two"\n', """\
╭────┬─────────────┬─────────────────────────╮
│ id │ name        │ quote                   │
├────┼─────────────┼─────────────────────────┤
│  1 │ Smith, John │ He said "stop" and left │
│  2 │ O'Brien     │ line one                │
│    │             │ line two                │
╰────┴─────────────┴─────────────────────────╯
"""),
    ("", 'a,b\n"one\r\ntwo",x\n', """\
╭─────┬───╮
│ a   │ b │
├─────┼───┤
│ one │ x │
│ two │   │
╰─────┴───╯
"""),
    # A carriage return alone would overwrite the line: its picture is in its place, as of other control characters.
    ("", 'a,b\n"x\ry",z\n', """\
╭─────┬───╮
│ a   │ b │
├─────┼───┤
│ x␍y │ z │
╰─────┴───╯
"""),
    ("", "a,b\nx\x07,\x7fy\n", """\
╭────┬────╮
│ a  │ b  │
├────┼────┤
│ x␇ │ ␡y │
╰────┴────╯
"""),
    # Wide characters count two columns, and an emoji sequence counts two whole.
    ("", "城市,country,emoji\n東京,日本,🗼\nZürich,Schweiz,🇨🇭\n서울,대한민국,👩\u200d👩\u200d👧\n", """\
╭────────┬──────────┬───────╮
│ 城市   │ country  │ emoji │
├────────┼──────────┼───────┤
│ 東京   │ 日本     │ 🗼    │
│ Zürich │ Schweiz  │ 🇨🇭    │
│ 서울   │ 대한민국 │ 👩\u200d👩\u200d👧    │
╰────────┴──────────┴───────╯
"""),
    ("--no-header", AB, """\
╭───┬───╮
│ a │ b │
│ 1 │ 2 │
╰───┴───╯
"""),
    ("--rules all", "a\nb\nc\n", """\
╭───╮
│ a │
├───┤
│ b │
├───┤
│ c │
╰───╯
"""),
    ("--rules none", AB, """\
╭───┬───╮
│ a │ b │
│ 1 │ 2 │
╰───┴───╯
"""),
    ("--rules header", AB, AB_TABLE),
    ("--style rounded", AB, AB_TABLE),
    ("--style modern", AB, """\
┌───┬───┐
│ a │ b │
├───┼───┤
│ 1 │ 2 │
└───┴───┘
"""),
    ("--style ascii", AB, """\
+---+---+
| a | b |
+---+---+
| 1 | 2 |
+---+---+
"""),
    ("--style extended", AB, """\
╔═══╦═══╗
║ a ║ b ║
╠═══╬═══╣
║ 1 ║ 2 ║
╚═══╩═══╝
"""),
    ("--style empty", AB, " a  b \n 1  2 \n"),
    ("--align 0=right,1=center", "name,x\na,12345\n", """\
╭──────┬───────╮
│ name │   x   │
├──────┼───────┤
│    a │ 12345 │
╰──────┴───────╯
"""),
    ("--align size=left", SIZES, """\
╭──────┬──────╮
│ name │ size │
├──────┼──────┤
│ log  │ 42   │
│ x    │ 1000 │
╰──────┴──────╯
"""),
    ("--align 7=right", AB, AB_TABLE),
    ("--color 0=bold,b=red", AB, """\
╭───┬───╮
│ \x1b[1ma\x1b[22m │ \x1b[31mb\x1b[39m │
├───┼───┤
│ \x1b[1m1\x1b[22m │ \x1b[31m2\x1b[39m │
╰───┴───╯
"""),
    # Columns that are chosen, in their order: by number, by header, by a range of numbers; one of them twice.
    ("--columns size,0", SIZES, """\
╭──────┬──────╮
│ size │ name │
├──────┼──────┤
│   42 │ log  │
│ 1000 │ x    │
╰──────┴──────╯
"""),
    ("--columns 1-2,0", "a,b,c,d\n1,2,3,4\n", """\
╭───┬───┬───╮
│ b │ c │ a │
├───┼───┼───┤
│ 2 │ 3 │ 1 │
╰───┴───┴───╯
"""),
    ("--columns 0,b,a,0-0", "a,b\n1,2\n", """\
╭───┬───┬───┬───╮
│ a │ b │ a │ a │
├───┼───┼───┼───┤
│ 1 │ 2 │ 1 │ 1 │
╰───┴───┴───┴───╯
"""),
    # A short record has an empty field there, and a column past the header has no name.
    ("--columns 3,1", "a,b,c\nx\ny,z\np,q,r,s\n", """\
╭───┬───╮
│   │ b │
├───┼───┤
│   │   │
│   │ z │
│ s │ q │
╰───┴───╯
"""),
    # A header that looks like a range is a column where it has something else beside digits; of two with one text it is the first.
    ("--columns 2020-,x-1", "2020-,x-1,x-1\n1,a,b\n", """\
╭───────┬─────╮
│ 2020- │ x-1 │
├───────┼─────┤
│     1 │ a   │
╰───────┴─────╯
"""),
    # Numbers and names in the other lists are of the input.
    ("--columns 1,0,1 --align 1=left,7=right --color 0=bold,b=red", "a,b\n1,2\n", """\
╭───┬───┬───╮
│ \x1b[31mb\x1b[39m │ \x1b[1ma\x1b[22m │ \x1b[31mb\x1b[39m │
├───┼───┼───┤
│ \x1b[31m2\x1b[39m │ \x1b[1m1\x1b[22m │ \x1b[31m2\x1b[39m │
╰───┴───┴───╯
"""),
    ("--columns 1 --align b=left --max-rows 1", "a,b\n1,22\n3,4444\n", """\
╭────╮
│ b  │
├────┤
│ 22 │
╰────╯
(1 more row)
"""),
    ("--columns 1 --no-header --rules none --style empty", AB, " b \n 2 \n"),
    ("--max-rows 1", SIZES, """\
╭──────┬──────╮
│ name │ size │
├──────┼──────┤
│ log  │   42 │
╰──────┴──────╯
(1 more row)
"""),
    ("--max-rows 2", SIZES, """\
╭──────┬──────╮
│ name │ size │
├──────┼──────┤
│ log  │   42 │
│ x    │ 1000 │
╰──────┴──────╯
"""),
    # No record is shown: the header alone, or nothing, and how many are left out.
    ("--max-rows 0", SIZES, """\
╭──────┬──────╮
│ name │ size │
╰──────┴──────╯
(2 more rows)
"""),
    ("--max-rows 0 --no-header", SIZES, "(3 more rows)\n"),
    # The last records; columns are as wide as what is shown needs.
    ("--tail 2", FIVE, """\
╭──────┬───╮
│ name │ n │
├──────┼───┤
│ d    │ 4 │
│ e    │ 5 │
╰──────┴───╯
(3 earlier rows)
"""),
    ("--tail 4", FIVE, """\
╭──────┬────╮
│ name │  n │
├──────┼────┤
│ b    │ 22 │
│ c    │  3 │
│ d    │  4 │
│ e    │  5 │
╰──────┴────╯
(1 earlier row)
"""),
    ("--tail 5", FIVE, FIVE_TABLE),
    ("--tail 9", FIVE, FIVE_TABLE),
    ("--tail 0", FIVE, """\
╭──────┬───╮
│ name │ n │
╰──────┴───╯
(5 earlier rows)
"""),
    ("--tail 1 --no-header", FIVE, """\
╭───┬───╮
│ e │ 5 │
╰───┴───╯
(5 earlier rows)
"""),
    ("--tail 0 --no-header", FIVE, "(6 earlier rows)\n"),
    ("--tail 3", "", ""),
    # The first and the last, and a row of ellipses between them, unless these are all.
    ("--max-rows 1 --tail 2", FIVE, """\
╭──────┬───╮
│ name │ n │
├──────┼───┤
│ a    │ 1 │
│ …    │ … │
│ d    │ 4 │
│ e    │ 5 │
╰──────┴───╯
(2 rows left out)
"""),
    ("--tail 2 --max-rows 2", FIVE, """\
╭──────┬────╮
│ name │  n │
├──────┼────┤
│ a    │  1 │
│ b    │ 22 │
│ …    │  … │
│ d    │  4 │
│ e    │  5 │
╰──────┴────╯
(1 row left out)
"""),
    ("--max-rows 2 --tail 3", FIVE, FIVE_TABLE),
    ("--max-rows 3 --tail 4", FIVE, FIVE_TABLE),
    ("--max-rows 0 --tail 1", FIVE, """\
╭──────┬───╮
│ name │ n │
├──────┼───┤
│ …    │ … │
│ e    │ 5 │
╰──────┴───╯
(4 rows left out)
"""),
    ("--max-rows 1 --tail 0", FIVE, """\
╭──────┬───╮
│ name │ n │
├──────┼───┤
│ a    │ 1 │
│ …    │ … │
╰──────┴───╯
(4 rows left out)
"""),
    ("--max-rows 1 --tail 1 --no-header", "1,a\n2,b\n3,c\n", """\
╭───┬───╮
│ 1 │ a │
│ … │ … │
│ 3 │ c │
╰───┴───╯
(1 row left out)
"""),
    # That row is one to the rules, and has a cell for each column of what is shown.
    ("--max-rows 1 --tail 1 --rules all", FIVE, """\
╭──────┬───╮
│ name │ n │
├──────┼───┤
│ a    │ 1 │
├──────┼───┤
│ …    │ … │
├──────┼───┤
│ e    │ 5 │
╰──────┴───╯
(3 rows left out)
"""),
    ("--max-rows 1 --tail 1", "a,b\n1\n2,3,4\n5\n", """\
╭───┬───╮
│ a │ b │
├───┼───┤
│ 1 │   │
│ … │ … │
│ 5 │   │
╰───┴───╯
(1 row left out)
"""),
    ("--max-rows 1 --tail 1 --columns n,name", FIVE, """\
╭───┬──────╮
│ n │ name │
├───┼──────┤
│ 1 │ a    │
│ … │ …    │
│ 5 │ e    │
╰───┴──────╯
(3 rows left out)
"""),
    # In a width the widest column gives first, lines are wrapped between words, and the space between two lines is not printed.
    ("--width 15 --all-columns", "a,b\nx,one two three\n", """\
╭───┬─────────╮
│ a │ b       │
├───┼─────────┤
│ x │ one two │
│   │ three   │
╰───┴─────────╯
"""),
    ("--width none", "a,b\nx,one two three\n", """\
╭───┬───────────────╮
│ a │ b             │
├───┼───────────────┤
│ x │ one two three │
╰───┴───────────────╯
"""),
    # A line that fits keeps its end.
    ("--width 7 --truncate", 'a\n"New\nYork"\n', """\
╭─────╮
│ a   │
├─────┤
│ New │
│ Yo… │
╰─────╯
"""),
    # The space at which a line is wrapped has no line of its own.
    ("--width 7", 'a\n"one two"\n', """\
╭─────╮
│ a   │
├─────┤
│ one │
│ two │
╰─────╯
"""),
    ("--width 15 --all-columns --truncate", "a,b\nx,one two three\n", """\
╭───┬─────────╮
│ a │ b       │
├───┼─────────┤
│ x │ one tw… │
╰───┴─────────╯
"""),
    # A column of numbers is not wrapped while another can give, though it is the widest.
    # A column that gave is as wide as its widest line then, with the space between two lines.
    ("--width 21 --all-columns", "name,number\nabc def,13960000\n", """\
╭──────┬──────────╮
│ name │   number │
├──────┼──────────┤
│ abc  │ 13960000 │
│ def  │          │
╰──────┴──────────╯
"""),
]

# Arguments and a text whose table cannot be as narrow as requested: it is wider, and a line on standard error says so.
WIDER = b"basinmug: the table is wider than requested: --expanded shows records one below the other\n"
TOO_NARROW = [
    ("--width 5 --all-columns", "abc,de\nxyz,f\n", """\
╭────┬────╮
│ ab │ de │
│ c  │    │
├────┼────┤
│ xy │ f  │
│ z  │    │
╰────┴────╯
"""),
]

# The hint that is reported of bytes that are not UTF-8.
PERHAPS = "(perhaps WINDOWS-1252: iconv -f WINDOWS-1252 -t UTF-8)"
# Texts in CSV that have no table, and the message for each after the name of the input.
REFUSED = [
    (b"a,b\nx,\xff\n", f"line 2, field 2: not UTF-8 {PERHAPS}"),
    (b"\xff", f"line 1, field 1: not UTF-8 {PERHAPS}"),
    (b'a,b\n"one\ntwo",\xe2\x82\n', f"line 3, field 2: not UTF-8 {PERHAPS}"),
    ("name,n\nZoë,1\n".encode("cp1252"), f"line 2, field 1: not UTF-8 {PERHAPS}"),
    ("a,b\n1,2\n".encode("utf-16"), "line 1, field 1: not UTF-8 (UTF-16: iconv -f UTF-16 -t UTF-8)"),
    (b"\xfe\xff" + "a,b\n1,2\n".encode("utf-16-be"), "line 1, field 1: not UTF-8 (UTF-16: iconv -f UTF-16 -t UTF-8)"),
    (b"\xff\xfe\0\0" + "a,b\n1,2\n".encode("utf-32-le"), "line 1, field 1: not UTF-8 (UTF-32: iconv -f UTF-32 -t UTF-8)"),
    (b"\0\0\xfe\xff" + "a,b\n1,2\n".encode("utf-32-be"), "line 1, field 1: not UTF-8 (UTF-32: iconv -f UTF-32 -t UTF-8)"),
    (b'a,b\nx,"unterminated\ny,z\n', "line 2: a quote that is not closed"),
    (b'"', "line 1: a quote that is not closed"),
]

# What is said of values that are wrong.
BAD_DELIMITER = "basinmug: bad delimiter: use an ASCII character, tab, or auto\n"
BAD_ROWS = "basinmug: bad number of rows: use 0 to 4294967295\n"
BAD_WIDTH = "basinmug: bad width: use 0 to 4294967295, or none\n"
BAD_ALIGNMENT = "basinmug: bad alignment: use COLUMN=left, center or right, separated by commas\n"
BAD_COLOR = "basinmug: bad color: use COLUMN=NAME, separated by commas\n"
BAD_COLUMNS = "basinmug: bad columns: use COLUMN or N-M, separated by commas\n"

# Arguments that are wrong, and the message.
FAULTY = [
    (["--delimiter", ""], BAD_DELIMITER),
    (["--delimiter", ";;"], BAD_DELIMITER),
    (["--delimiter", '"'], BAD_DELIMITER),
    (["--delimiter", "\n"], BAD_DELIMITER),
    (["--delimiter", "é"], BAD_DELIMITER),
    (["--delimiter", "\t", "--color", "x"], BAD_COLOR),
    (["--max-rows", "x"], BAD_ROWS),
    (["--max-rows", "-1"], None),
    (["--max-rows", "4294967296"], BAD_ROWS),
    (["--head", "x"], BAD_ROWS),
    (["--head", "4294967296"], BAD_ROWS),
    (["--tail", "x"], BAD_ROWS),
    (["--tail", ""], BAD_ROWS),
    (["--head", "1", "--tail", "1"], "basinmug: --head and --tail exclude each other\n"),
    (["--tail=0", "--head=0", "--width", "x"], "basinmug: --head and --tail exclude each other\n"),
    (["--head", "1", "--tail", "x"], BAD_ROWS),
    (["--head", "1", "--tail", "1", "--delimiter", ""], BAD_DELIMITER),
    (["--tail", "1", "--tail", "2"], None),
    (["--width", "wide"], BAD_WIDTH),
    (["--width", ""], BAD_WIDTH),
    (["--width", "4294967296"], BAD_WIDTH),
    (["--style", "markdown", "--width", "40"], "basinmug: markdown takes no width\n"),
    (["--align", "0=middle"], BAD_ALIGNMENT),
    (["--align", "0=left,00=right"], BAD_ALIGNMENT),
    (["--align", ""], BAD_ALIGNMENT),
    (["--color", "0=pink"], BAD_COLOR),
    (["--color", "name=red,name=bold"], BAD_COLOR),
    (["--color", "=red"], BAD_COLOR),
    (["--color", "0"], BAD_COLOR),
    (["--color", "4294967296=red"], BAD_COLOR),
    (["--columns", ""], BAD_COLUMNS),
    (["--columns", "a,"], BAD_COLUMNS),
    (["--columns", "3-1"], BAD_COLUMNS),
    (["--columns", "4294967296"], BAD_COLUMNS),
    # the first of them is reported
    (["--color", "x", "--align", "x", "--width", "x", "--max-rows", "x", "--delimiter", ""], BAD_DELIMITER),
    (["--color", "x", "--align", "x"], BAD_ALIGNMENT),
    (["--styl", "modern"], None),
    (["--style", "roundd"], None),
    (["one.csv", "two.csv"], None),
]

# Arguments, a text in CSV with wide characters or a tab, and its table.
NARROW = [
    ("--width 8", "a\n東京都\n", "╭──────╮\n│ a    │\n├──────┤\n│ 東京 │\n│ 都   │\n╰──────╯\n"),
    # A wide character that is cut in half leaves U+FFFD, so that the ellipsis is in the last column.
    ("--width 8 --truncate", "a\n東京都\n", "╭──────╮\n│ a    │\n├──────┤\n│ 東�… │\n╰──────╯\n"),
    ("--width 9 --truncate", "a\n東京都\n", "╭───────╮\n│ a     │\n├───────┤\n│ 東京… │\n╰───────╯\n"),
    ("--width 10 --truncate", "a\n東京都\n", "╭────────╮\n│ a      │\n├────────┤\n│ 東京都 │\n╰────────╯\n"),
    ("", "a\n\"x\ty\"\n", "╭────────╮\n│ a      │\n├────────┤\n│ x    y │\n╰────────╯\n"),
    # Six columns too many: the widest gives first, of equal ones the right one, and the numbers nothing.
    ("--width 36 --all-columns", "城市,country,population,emoji\n東京,日本,13960000,🗼\nZürich,Schweiz,421878,🇨🇭\n서울,대한민국,9411000,👩\u200d👩\u200d👧\n", """\
╭───────┬──────┬────────────┬──────╮
│ 城市  │ coun │ population │ emoj │
│       │ try  │            │ i    │
├───────┼──────┼────────────┼──────┤
│ 東京  │ 日本 │   13960000 │ 🗼   │
│ Züric │ Schw │     421878 │ 🇨🇭   │
│ h     │ eiz  │            │      │
│ 서울  │ 대한 │    9411000 │ 👩‍👩‍👧   │
│       │ 민국 │            │      │
╰───────┴──────┴────────────┴──────╯
"""),
    # Colours stay as they are, also the number's, which is a number.
    ("", "level,message,ms\n\x1b[31mERROR\x1b[0m,\"\x1b[1mdisk\x1b[0m full: \x1b[33m/var\x1b[0m\",\x1b[32m12\x1b[0m\nWARN,retry,7\n", """\
╭───────┬─────────────────┬────╮
│ level │ message         │ ms │
├───────┼─────────────────┼────┤
│ \x1b[31mERROR\x1b[0m │ \x1b[1mdisk\x1b[0m full: \x1b[33m/var\x1b[0m │ \x1b[32m12\x1b[0m │
│ WARN  │ retry           │  7 │
╰───────┴─────────────────┴────╯
"""),
]
# Texts in colours, of which some are left open, and one is over several lines.
COLORED = "\x1b[1mname\x1b[0m,note\n\x1b[31mred fish\x1b[39m,one \x1b[32mtwo three\x1b[39m four\n\"\x1b[34mblue\nfish\",\x1b[4m東京で書いた\x1b[24m 🚀\n\x1b[35mopen,\x1b[33m1234567890123456\n"
SGR = re.compile("\x1b\\[([0-9;]*)m")
# The parameter that ends what another begins.
ENDS = {"1": "22", "4": "24", **{str(color): "39" for color in range(31, 38)}}

# Arguments with a width, a text in CSV, and what is shown of its columns.
FOUR = "aaaa,bbbb,cccc,dddd\nx,y,z,w\n"
FITTING = [
    # As many as fit with what they need, of the first and of the last, and below them how many.
    ("--width 40", "name,a longer header,number of people,four,five,six\n"
     "xxxxxxxx yyyyyyyyyyyyyyyy,bbbbbbbbbbbbbbbbbbbbbb,12345678,cccccccccccc,dddddddddd,eeeeeeee\n", """\
╭───────────┬───────────┬───┬──────────╮
│ name      │ a longer  │ … │ six      │
│           │ header    │   │          │
├───────────┼───────────┼───┼──────────┤
│ xxxxxxxx  │ bbbbbbbbb │ … │ eeeeeeee │
│ yyyyyyyyy │ bbbbbbbbb │   │          │
│ yyyyyyy   │ bbbb      │   │          │
╰───────────┴───────────┴───┴──────────╯
(3 of 6 columns)
"""),
    # A name means a column of the input, whatever is left out.
    ("--width 25 --align dddd=right", FOUR, """\
╭──────┬───┬──────╮
│ aaaa │ … │ dddd │
├──────┼───┼──────┤
│ x    │ … │    w │
╰──────┴───┴──────╯
(2 of 4 columns)
"""),
    ("--width 26", FOUR, """\
╭──────┬──────┬───┬──────╮
│ aaaa │ bbbb │ … │ dddd │
├──────┼──────┼───┼──────┤
│ x    │ y    │ … │ w    │
╰──────┴──────┴───┴──────╯
(3 of 4 columns)
"""),
    ("--width 29", FOUR, """\
╭──────┬──────┬──────┬──────╮
│ aaaa │ bbbb │ cccc │ dddd │
├──────┼──────┼──────┼──────┤
│ x    │ y    │ z    │ w    │
╰──────┴──────┴──────┴──────╯
"""),
    # Of those that are chosen, in their order; what is left out of the rows is counted below.
    ("--width 21 --columns 3,1-2 --max-rows 0", FOUR, """\
╭──────┬───┬──────╮
│ dddd │ … │ cccc │
╰──────┴───┴──────╯
(2 of 3 columns)
(1 more row)
"""),
    ("--width 21 --columns 3,1-2 --tail 0", FOUR, """\
╭──────┬───┬──────╮
│ dddd │ … │ cccc │
╰──────┴───┴──────╯
(2 of 3 columns)
(1 earlier row)
"""),
    ("--width 21 --columns 3,1-2 --max-rows 0 --tail 0", FOUR, """\
╭──────┬───┬──────╮
│ dddd │ … │ cccc │
├──────┼───┼──────┤
│ …    │ … │ …    │
╰──────┴───┴──────╯
(2 of 3 columns)
(1 row left out)
"""),
    # Without lines columns take less.
    ("--width 24 --style empty", FOUR, " aaaa  bbbb  cccc  dddd \n x     y     z     w    \n"),
    # Where one alone fits; and where not even one does, in what is left.
    ("--width 15", "a,b\nx,one two three\n", """\
╭───┬───╮
│ a │ … │
├───┼───┤
│ x │ … │
╰───┴───╯
(1 of 2 columns)
"""),
    ("--width 10", FOUR, """\
╭────┬───╮
│ aa │ … │
│ aa │   │
├────┼───┤
│ x  │ … │
╰────┴───╯
(1 of 4 columns)
"""),
    ("--width 5", FOUR, """\
╭───╮
│ a │
│ a │
│ a │
│ a │
├───┤
│ x │
╰───╯
(1 of 4 columns)
"""),
    # All of them, as narrow as they can be.
    ("--width 21 --all-columns", FOUR, """\
╭────┬────┬────┬────╮
│ aa │ bb │ cc │ dd │
│ aa │ bb │ cc │ dd │
├────┼────┼────┼────┤
│ x  │ y  │ z  │ w  │
╰────┴────┴────┴────╯
"""),
    # A number is not split while it has at most 24 columns.
    ("--width 27", "name,n\nabc def ghi,123456789012\n", """\
╭──────────┬──────────────╮
│ name     │            n │
├──────────┼──────────────┤
│ abc def  │ 123456789012 │
│ ghi      │              │
╰──────────┴──────────────╯
"""),
]

# Arguments, a text in CSV, and its document.
DOCUMENTS = [
    # Where no record is of numbers, texts are at the left; an empty header is above what has none.
    ("--no-header", "a,1\nb,22\n", "|   |    |\n|:--|---:|\n| a |  1 |\n| b | 22 |\n"),
    ("--no-header", "a|b\n", "|      |\n|:-----|\n| a\\|b |\n"),
    # A short record is filled, and so is a header that is shorter than a record.
    ("--no-header", "a\nb,c\n", "|   |   |\n|:--|:--|\n| a |   |\n| b | c |\n"),
    ("", "a\nb,7\n", "| a |   |\n|:--|--:|\n| b | 7 |\n"),
    # A header alone, one empty field, and nothing at all.
    ("", "name,size\n", "| name | size |\n|:-----|:-----|\n"),
    ("", '""\n', "|  |\n|:-|\n"),
    ("", "", ""),
    ("--no-header", "", ""),
    # Columns that are chosen.
    ("--columns n,0 --align name=right", "name,n\nx|y,1\n", "| n | name |\n|--:|-----:|\n| 1 | x\\|y |\n"),
    # What is requested of columns.
    ("--align 0=center,1=left", "name,n\nx,1\n", "| name | n |\n|:----:|:--|\n|  x   | 1 |\n"),
    ("--align 0=center,1=center", '"",""\n"",\n', "|  |  |\n|:-:|:-:|\n|  |  |\n"),
    ("--align 1=right --no-header", "城市,x\n", "|      |   |\n|:-----|--:|\n| 城市 | x |\n"),
    ("--color n=red", "n\n1\n", "| \x1b[31mn\x1b[39m |\n|--:|\n| \x1b[31m1\x1b[39m |\n"),
    # What is left out comes after a blank line, else it would be a row.
    ("--max-rows 1", "n\n1\n2\n", "| n |\n|--:|\n| 1 |\n\n(1 more row)\n"),
    ("--max-rows 0", "n\n1\n2\n", "| n |\n|:--|\n\n(2 more rows)\n"),
    ("--max-rows 0 --no-header", "n\n1\n2\n", "\n(3 more rows)\n"),
    ("--max-rows 2", "n\n1\n2\n", "| n |\n|--:|\n| 1 |\n| 2 |\n"),
    ("--tail 1", "n\n1\n2\n", "| n |\n|--:|\n| 2 |\n\n(1 earlier row)\n"),
    ("--tail 2", "n\n1\n2\n", "| n |\n|--:|\n| 1 |\n| 2 |\n"),
    ("--max-rows 1 --tail 1", "n\n1\n2\n3\n", "| n |\n|--:|\n| 1 |\n| … |\n| 3 |\n\n(1 row left out)\n"),
    ("--max-rows 1 --tail 1 --no-header", "n\n1\n2\n", "|   |\n|:--|\n| n |\n| … |\n| 2 |\n\n(1 row left out)\n"),
]

# Arguments, a text in CSV, and its records one below the other.
RECORDS = [
    ("", "name,size\nAda,42\nx\n", "-[ RECORD 0 ]-\nname | Ada\nsize | 42\n-[ RECORD 1 ]-\nname | x\nsize | \n"),
    ("--max-rows 1", "name,size\nAda,42\nx,y\n", "-[ RECORD 0 ]-\nname | Ada\nsize | 42\n(1 more record)\n"),
    ("--max-rows 0", "name,size\nAda,42\nx,y\n", "(2 more records)\n"),
    ("--no-header", "name,size\nAda,42\n", "-[ RECORD 0 ]-\n0 | name\n1 | size\n-[ RECORD 1 ]-\n0 | Ada\n1 | 42\n"),
    # A record with more fields than the header has names keeps them.
    ("", "a\n1,2\n", "-[ RECORD 0 ]-\na | 1\n  | 2\n"),
    ("", "a,b\n", ""),
    ("", "", ""),
    ("--max-rows 0 --no-header", "a\n1,2\n", "(2 more records)\n"),
    # Fields are those of the header and of the records that are shown.
    ("--max-rows 1", "a\n1\n2,3\n", "-[ RECORD 0 ]-\na | 1\n(1 more record)\n"),
    ("--max-rows 1 --no-header", "1\n2,3\n", "-[ RECORD 0 ]-\n0 | 1\n(1 more record)\n"),
    # Records keep the numbers that they have among all.
    ("--tail 1", "name,size\nAda,42\nx,y\n", "-[ RECORD 1 ]-\nname | x\nsize | y\n(1 earlier record)\n"),
    ("--tail 2", "a\n1\n2\n", "-[ RECORD 0 ]-\na | 1\n-[ RECORD 1 ]-\na | 2\n"),
    ("--tail 0", "a\n1\n2\n", "(2 earlier records)\n"),
    ("--tail 1 --no-header", "1\n2\n", "-[ RECORD 1 ]-\n0 | 2\n(1 earlier record)\n"),
    ("--max-rows 1 --tail 1", "a\n1\n2\n3\n4\n", "-[ RECORD 0 ]-\na | 1\n…\n-[ RECORD 3 ]-\na | 4\n(2 records left out)\n"),
    ("--max-rows 2 --tail 2", "a\n1\n2\n3\n", "-[ RECORD 0 ]-\na | 1\n-[ RECORD 1 ]-\na | 2\n-[ RECORD 2 ]-\na | 3\n"),
    ("--max-rows 0 --tail 1", "a\n1\n2\n", "…\n-[ RECORD 1 ]-\na | 2\n(1 record left out)\n"),
    ("--max-rows 1 --tail 0", "a\n1\n2\n", "-[ RECORD 0 ]-\na | 1\n…\n(1 record left out)\n"),
    # Bars are below each other, beside wide names and further lines.
    ("", "漢字,b\n1,2\n", "-[ RECORD 0 ]-\n漢字 | 1\nb    | 2\n"),
    ("", 'a,b\n"one\ntwo",x\n', "-[ RECORD 0 ]-\na | one\n  | two\nb | x\n"),
    ("", '"a\nb"\n1\n', "-[ RECORD 0 ]-\na | 1\nb | \n"),
    # Each line ends its own styles.
    ("", "a,b\n\x1b[31mx,y\n", "-[ RECORD 0 ]-\na | \x1b[31mx\x1b[39m\nb | y\n"),
    ("", 'a\n"\x1b[1mx\ny"\n', "-[ RECORD 0 ]-\na | \x1b[1mx\x1b[22m\n  | \x1b[1my\x1b[22m\n"),
    ("", "\x1b[31ma,b\nx,y\n", "-[ RECORD 0 ]-\n\x1b[31ma\x1b[39m | x\nb | y\n"),
    # Rules are as long as names and texts need, with a cross at the bar, and all alike.
    ("", "a name of eighteen\nx\n", "-[ RECORD 0 ]------+--\na name of eighteen | x\n"),
    ("", "a\n0123456789ab\nx\n", "-[ RECORD 0 ]---\na | 0123456789ab\n-[ RECORD 1 ]---\na | x\n"),
    ("--no-header", "".join(f"{at}\n" for at in range(11)), "".join(f"-[ RECORD {at} ]{'-' if at > 9 else '--'}\n0 | {at}\n" for at in range(11))),
    ("", 'a\n"' + "x\n" * 99 + '"\n', "-[ RECORD 0 ]-\na | x\n" + "  | x\n" * 98 + "  | \n"),
    ("", "a\n" + "y" * 99 + "\nx\n", "-[ RECORD 0 ]" + "-" * 67 + "\na | " + "y" * 99 + "\n-[ RECORD 1 ]" + "-" * 67 + "\na | x\n"),
    # In a width names have half of it, and values what is left, but at least a column.
    ("--width 20", "a,b\none two three four,x\n", "-[ RECORD 0 ]-------\na | one two three \n  | four\nb | x\n"),
    ("--width 20 --truncate", "a,b\none two three four,x\n", "-[ RECORD 0 ]-------\na | one two three f…\nb | x\n"),
    ("--width 10", "abcdefgh\nx\n", "-[ RECORD \nabcd… | x\n"),
    ("--width 5", "abcdefgh\nxyz\n", "-[ RE\na… | x\n   | y\n   | z\n"),
    ("--width 1", "ab\nxy\n", "-\n | x\n | y\n"),
    ("--width 0", "ab\nx\n", "\n | x\n"),
    ("--width 11", "a\n\x1b[31mone two\n", "-[ RECORD 0\na | \x1b[31mone two\x1b[39m\n"),
    ("--width 10", "a\n\x1b[31mone two\n", "-[ RECORD \na | \x1b[31mone \x1b[39m\n  | \x1b[31mtwo\x1b[39m\n"),
    # The other options of width and look have no effect.
    ("--width none --priority left --style ascii --color a=red --align 0=right --rules all", "a\n1|2\n", "-[ RECORD 0 ]-\na | 1|2\n"),
    # Columns that are chosen, which are counted from 0 where they have no names.
    ("--columns size,0", "name,size\nAda,42\nx\n", "-[ RECORD 0 ]-\nsize | 42\nname | Ada\n-[ RECORD 1 ]-\nsize | \nname | x\n"),
    ("--columns 1-2,1 --no-header", "a,b,c\n", "-[ RECORD 0 ]-\n0 | b\n1 | c\n2 | b\n"),
]


def boxed(*rows):
    """The table of rows of texts, all of one width, whose columns are as wide as the texts of the first."""
    def line(left, middle, right):
        return left + middle.join("─" * (len(it) + 2) for it in rows[0]) + right + "\n"

    drawn = ["│" + "│".join(f" {it} " for it in row) + "│\n" for row in rows]
    rule = [line("├", "┼", "┤")] if rows[1:] else []
    return "".join([line("╭", "┬", "╮"), drawn[0], *rule, *drawn[1:], line("╰", "┴", "╯")])


# Texts whose first line chooses the delimiter, and their tables.
FIRST_LINES = [
    ("city, state\tpop\nRome, IT\t2.7\n", boxed(["city, state", "pop"], ["Rome, IT   ", "2.7"])),
    ("1,5;2,5;3,5\n", boxed(["1,5", "2,5", "3,5"])),
    ('5" disk,b\nx,y\n', boxed(['5" disk', "b"], ["x      ", "y"])),
    ('"a;b;c",d\n1,2\n', boxed(["a;b;c", "d"], ["    1", "2"])),
    ('"x\n;;;",b\ny,z\n', "╭─────┬───╮\n│ x   │ b │\n│ ;;; │   │\n├─────┼───┤\n│ y   │ z │\n╰─────┴───╯\n"),
    # the last quote is closed by none, since two are one; so all are letters, and the first line ends in the second cell
    ('x|;"\n|"|"a""', '╭────┬────────╮\n│ x| │        │\n│    │ ||"a"" │\n╰────┴────────╯\n'),
    ("\x1b[38;5;1mid\x1b[0m,n\n1,2\n", boxed(["id", "n"], [" 1", "2"]).replace("id", "\x1b[38;5;1mid\x1b[0m")),
    # one column, a header alone, and empty lines before the first
    ("name\nada\nbob\n", boxed(["name"], ["ada "], ["bob "])),
    ("a;b\n", boxed(["a", "b"])),
    ("\n\r\n\na|b\n1|2\n", boxed(["a", "b"], ["1", "2"])),
    ("\n\n", ""),
    ("", ""),
    ("\ufeff", ""),
    ("\ufeffa;b\r\n1;2\r\n", AB_TABLE),
    ("\ufeffname\r\nada\r\n\r\nbob\r\n", boxed(["name"], ["ada "], ["bob "])),
    # what is in later lines counts nothing
    ("a;b\nx,y,z;1\n", boxed(["a    ", "b"], ["x,y,z", "1"])),
]


NAME_SIZE = boxed(["name", "size"], ["log ", "  42"])

# Arguments, a text, and the table of its first records.
HEADS = [
    ("--head 1", SIZES, NAME_SIZE),
    ("--head 2", SIZES, boxed(["name", "size"], ["log ", "  42"], ["x   ", "1000"])),
    ("--head 9", SIZES, boxed(["name", "size"], ["log ", "  42"], ["x   ", "1000"])),
    ("--head 4294967295", AB, AB_TABLE),
    ("--head 0", SIZES, boxed(["name", "size"])),
    ("--head 0 --no-header", SIZES, ""),
    ("--head 1 --no-header", SIZES, boxed(["name", "size"])),
    ("--head 1", "", ""),
    ("--head 1", "\n\n", ""),
    # a record that goes over lines, empty lines, and each end of a line
    ("--head 1", 'a,b\n"1\n2",3\nx,y\n', "╭───┬───╮\n│ a │ b │\n├───┼───┤\n│ 1 │ 3 │\n│ 2 │   │\n╰───┴───╯\n"),
    ("--head 1", "\n\na,b\n\n1,2\n\nx,y\n", AB_TABLE),
    ("--head 1", "a,b\r\n1,2\r\nx,y\r\n", AB_TABLE),
    ("--head 1", "a,b\r1,2\rx,y", AB_TABLE),
    ("--head 1", "a,b\n1,2", AB_TABLE),
    # byte order marks, and lines that name the delimiter
    ("--head 1", '\ufeff"a",b\n1,2\nx,y\n', AB_TABLE),
    ("--head 0", '\ufeff"a","b"\n1,2\n', boxed(["a", "b"])),
    ("--head 1", "sep=;\na;b\n1;2\nx;y\n", AB_TABLE),
    ("--head 1", "\ufeffsep=;\r\na;b\r\n1;2\r\nx;y\r\n", AB_TABLE),
    ("--head 0", "sep=;\na;b\n1;2\n", boxed(["a", "b"])),
    # the delimiter is found in the first line alone
    ("--head 1", "a;b\n1;2\n,,,,\n", AB_TABLE),
    ("--head 1 --delimiter ;", "a;b\n1;2\n3;4\n", AB_TABLE),
    ("--head 1 --delimiter ;", 'a,"b\n1;2\n3;4\n', "╭──────┬───╮\n│ a,\"b │   │\n├──────┼───┤\n│    1 │ 2 │\n╰──────┴───╯\n"),
    # how many are shown, and in which form
    ("--head 2 --max-rows 1", SIZES + "y,1\n", NAME_SIZE + "(1 more row)\n"),
    ("--head 1 --expanded", SIZES, "-[ RECORD 0 ]-\nname | log\nsize | 42\n"),
    ("--head 1 --style markdown", SIZES, "| name | size |\n|:-----|-----:|\n| log  |   42 |\n"),
    # what is below the last is ignored
    ("--head 1", 'a,b\n1,2\n"x\n', AB_TABLE),
    ("--head 1 --escapes all", "a,b\n1,2\n\x1b[3\n", AB_TABLE),
]


class Basinmug(Case):
    """A test of `basinmug`."""

    @classmethod
    def setUpClass(cls):
        cls.program = program("basinmug")

    def setUp(self):
        folder = tempfile.TemporaryDirectory()
        self.addCleanup(folder.cleanup)
        self.folder = folder.name

    def written(self, name, given):
        """A file of these bytes, and its path."""
        path = f"{self.folder}/{name}"
        with open(path, "wb") as it:
            it.write(given)
        return path

    def assertRowsPrint(self, rows, *words, **how):
        """Each row has arguments, a text on standard input, and the table that is printed; `words` come before its own."""
        for own, given, wanted in rows:
            with self.subTest(f"{own} {given!r}"):
                self.assertPrints(given.encode(), wanted.encode(), *words, *own.split(), **how)

    def assertRowsOfFilesPrint(self, rows):
        """The same with each text in a file."""
        for own, given, wanted in rows:
            with self.subTest(f"{own} {given!r}"):
                self.assertPrints(b"", wanted.encode(), *own.split(), self.written("given.csv", given.encode()))


class Tables(Basinmug):
    """What the arguments request, and what is in the text."""

    def test_tables_of_files(self):
        self.assertRowsOfFilesPrint(TABLES)

    def test_tables_of_standard_input(self):
        self.assertRowsPrint(TABLES, "--delimiter", ",")

    def test_a_table_that_cannot_be_so_narrow_is_wider_and_a_line_says_so(self):
        for words, given, wanted in TOO_NARROW:
            with self.subTest(f"{words} {given!r}"):
                self.assertEnds(ended([self.program, "--delimiter=,", *words.split()], given.encode()), wanted.encode(), said=WIDER)


class Inputs(Basinmug):
    """Where the text comes from, and its delimiter."""

    def test_the_delimiter_is_found(self):
        for byte in "\t,;|":
            given = AB.replace(",", byte).encode()
            for words in ([], ["-"], ["--delimiter", "auto"], ["--delimiter=auto", "-"]):
                with self.subTest(f"{byte!r} {words}"):
                    self.assertPrints(given, AB_TABLE.encode(), *words)
            for name in ("x.csv", "X.CSV", "x.txt", "x", "x.tsv.old"):
                with self.subTest(f"{byte!r} {name}"):
                    self.assertPrints(b"", AB_TABLE.encode(), self.written(name, given))

    def test_names_that_end_in_tsv_or_tab_mean_tabs(self):
        commas = "╭─────╮\n│ a,b │\n├─────┤\n│ 1,2 │\n╰─────╯\n".encode()
        for name in ("x.tsv", "X.TSV", ".tab"):
            with self.subTest(name):
                self.assertPrints(b"", AB_TABLE.encode(), self.written(name, TABS))
                self.assertPrints(b"", commas, self.written(name, AB.encode()))
                self.assertPrints(b"", AB_TABLE.encode(), "--delimiter=,", self.written(name, AB.encode()))
                for given, wanted in ((TABS, AB_TABLE.encode()), (AB.encode(), commas)):
                    self.assertPrints(b"", wanted, "--head=1", self.written(name, given))

    def test_first_lines_choose(self):
        for given, wanted in FIRST_LINES:
            with self.subTest(f"{given!r}"):
                self.assertPrints(given.encode(), wanted.encode())

    def test_a_first_line_may_name_the_delimiter(self):
        for given in ("sep=;\r\na;b\r\n1;2\r\n", "\ufeffsep=;\na;b\n1;2\n", "sep=^\na^b\n1^2"):
            with self.subTest(f"{given!r}"):
                self.assertPrints(given.encode(), AB_TABLE.encode())
                self.assertPrints(b"", AB_TABLE.encode(), self.written("x.csv", given.encode()))

    def test_such_a_line_is_a_record_where_the_arguments_say_the_delimiter(self):
        self.assertPrints(b"sep=,\n1,2\n", "╭──────┬───╮\n│ sep= │   │\n├──────┼───┤\n│    1 │ 2 │\n╰──────┴───╯\n".encode(), "--delimiter", ",")

    def test_after_such_a_line_errors_are_reported_at_their_place(self):
        self.assertRefuses(b"sep=;\na;b\nx;\xff\n", f"basinmug: standard input: line 3, field 2: not UTF-8 {PERHAPS}\n".encode())

    def test_delimiters(self):
        for name in (";", "|", " ", ":", "\t", "\\t", "tab"):
            given = AB.replace(",", "\t" if name in ("\\t", "tab") else name).encode()
            with self.subTest(f"{name!r}"):
                self.assertPrints(given, AB_TABLE.encode(), f"--delimiter={name}")
            with self.subTest(f"{name!r}, of a CSV file"):
                self.assertPrints(b"", AB_TABLE.encode(), "--delimiter", name, self.written("x.csv", given))

    def test_errors_are_reported_with_the_name_of_the_file(self):
        for given, fault in REFUSED:
            with self.subTest(f"{given!r}"):
                path = self.written("bad.csv", given)
                self.assertRefuses(b"", f"basinmug: {path}: {fault}\n".encode(), path)

    def test_errors_are_reported_of_standard_input(self):
        for given, fault in REFUSED:
            with self.subTest(f"{given!r}"):
                self.assertRefuses(given, f"basinmug: standard input: {fault}\n".encode(), "--delimiter", ",")

    def test_a_missing_file_is_reported(self):
        missing = f"{self.folder}/missing.csv"
        self.assertRefuses(b"", f"basinmug: {missing}: No such file or directory (os error 2)\n".encode(), missing)

    def test_a_missing_file_of_an_odd_name_is_reported_in_one_line(self):
        """Control characters of a name are shown by their pictures."""
        said = f"basinmug: {self.folder}/a␛[2J␊␡b.csv: No such file or directory (os error 2)\n"
        self.assertRefuses(b"", said.encode(), f"{self.folder}/a\x1b[2J\n\x7fb.csv")

    def test_a_folder_is_a_read_error(self):
        self.assertRefuses(b"", f"basinmug: {self.folder}: Is a directory (os error 21)\n".encode(), self.folder)

    def test_a_name_that_no_header_has_is_reported(self):
        self.assertRefuses(AB.encode(), b"basinmug: there is no column c\n", "--delimiter=,", "--color", "c=red")

    def test_the_first_column_that_is_not_there_is_reported_and_nothing_is_written(self):
        # Of the columns that are shown, then of those with alignments, then of those with colours.
        for words, name in (
            ("--columns 0,2", "2"), ("--columns 0-2", "2"), ("--columns a,c", "c"), ("--columns 4294967295", "4294967295"),
            ("--columns 0-4294967295,c", "4294967295"), ("--columns c --align d=left --color e=red", "c"),
            ("--columns 0 --align d=left --color e=red", "d"), ("--columns 0 --color e=red", "e"), ("--columns a --no-header", "a"),
        ):
            for more in ([], ["--expanded"], ["--style", "markdown"]):
                with self.subTest(f"{words} {' '.join(more)}"):
                    self.assertRefuses(AB.encode(), f"basinmug: there is no column {name}\n".encode(), "--delimiter=,", *words.split(), *more)
        self.assertRefuses(b"", b"basinmug: there is no column 0\n", "--columns", "0")
        self.assertRefuses(AB.encode(), b"basinmug: there is no column q\n", "--delimiter=,", "--expanded", "--color", "q=red")

    def test_a_name_of_controls_that_no_header_has_is_reported_in_one_line(self):
        self.assertRefuses(AB.encode(), "basinmug: there is no column c␛[2J␇\n".encode(), "--delimiter=,", "--color", "c\x1b[2J\x07=red")

    def test_standard_input_that_is_only_to_be_written_is_a_read_error(self):
        with open("/dev/null", "wb") as closed:
            self.assertRefuses(None, b"basinmug: standard input: Bad file descriptor (os error 9)\n", stdin=closed)

    def test_a_terminal_that_is_read_is_reported(self):
        """The text that is typed is read to its end, and standard error says before that it is."""
        master, slave = pty.openpty()
        self.addCleanup(os.close, master)
        with os.fdopen(slave, "rb") as terminal:
            with subprocess.Popen([self.program], stdin=terminal, stdout=subprocess.PIPE, stderr=subprocess.PIPE, env=environment()) as started:
                said = started.stderr.readline()
                os.write(master, AB.encode() + b"\x04")
                table, rest = started.communicate(timeout=SECONDS)
        self.assertEqual((started.returncode, said + rest), (0, b"basinmug: reading from the terminal: Ctrl-D on a line of its own ends the text\n"))
        self.assertSame(table, AB_TABLE.encode())

    def test_a_file_on_a_terminal_is_read_without_a_word(self):
        master, slave = pty.openpty()
        self.addCleanup(os.close, master)
        with os.fdopen(slave, "rb") as terminal:
            self.assertPrints(None, AB_TABLE.encode(), self.written("x.csv", AB.encode()), stdin=terminal)


class Heads(Basinmug):
    """The first records, of which no more is read than the block in which the last of them ends."""

    def test_the_first_records_of_files(self):
        self.assertRowsOfFilesPrint(HEADS)

    def test_the_first_records_of_bytes_that_come_one_by_one(self):
        """The reader may end before all are written."""
        for words, given, wanted in HEADS:
            with self.subTest(f"{words} {given!r}"):
                with subprocess.Popen([self.program, *words.split()], stdin=subprocess.PIPE, stdout=subprocess.PIPE, stderr=subprocess.PIPE, env=environment()) as started:
                    for byte in given.encode():
                        try:
                            os.write(started.stdin.fileno(), bytes([byte]))
                        except BrokenPipeError:
                            break
                        time.sleep(0.001)
                    wrote, said = started.communicate(timeout=SECONDS)
                self.assertEqual((started.returncode, said), (0, b""))
                self.assertSame(wrote, wanted.encode())

    def test_a_text_without_an_end(self):
        for words, line, wanted in (
            ("--head 2", "a,b", boxed(["a", "b"], ["a", "b"], ["a", "b"])),
            ("--head 2 --no-header", "a,b", boxed(["a", "b"], ["a", "b"]).replace("├───┼───┤\n", "")),
            ("--head 1 --delimiter :", 'a,"b', boxed(['a,"b'], ['a,"b'])),
        ):
            with self.subTest(words):
                with subprocess.Popen(["yes", line], stdout=subprocess.PIPE, stderr=subprocess.DEVNULL) as endless:
                    self.assertPrints(None, wanted.encode(), *words.split(), stdin=endless.stdout)
                    endless.stdout.close()

    def test_no_end_is_waited_for(self):
        """The last record ends, and nothing is after it yet."""
        with subprocess.Popen([self.program, "--head", "1"], stdin=subprocess.PIPE, stdout=subprocess.PIPE, stderr=subprocess.PIPE, env=environment()) as started:
            os.write(started.stdin.fileno(), AB.encode())
            self.assertSame(started.stdout.read(), AB_TABLE.encode())
            started.stdin.close()

    def test_errors_before_the_last_are_reported(self):
        for words, given, fault in (
            ("--head 2", b'a,b\n1,2\n"x\n', "line 3: a quote that is not closed"),
            ("--head 1", b"a,b\n1,\xff\n", f"line 2, field 2: not UTF-8 {PERHAPS}"),
        ):
            with self.subTest(f"{words} {given!r}"):
                self.assertRefuses(given, f"basinmug: standard input: {fault}\n".encode(), *words.split())


class Widths(Basinmug):
    """The width that the environment sets, and that the arguments set."""

    given = b"a\tb\nx\tone two three\n"
    natural = "╭───┬───────────────╮\n│ a │ b             │\n├───┼───────────────┤\n│ x │ one two three │\n╰───┴───────────────╯\n".encode()
    narrow = "╭───┬─────────╮\n│ a │ b       │\n├───┼─────────┤\n│ x │ one two │\n│   │ three   │\n╰───┴─────────╯\n".encode()

    def test_columns_says_the_width_where_it_is_a_number(self):
        for columns in ("15", "015"):
            with self.subTest(columns):
                self.assertPrints(self.given, self.narrow, env=environment(COLUMNS=columns))

    def test_columns_that_is_wide_or_no_number_says_none(self):
        for columns in ("80", "", "0", "-3", "15x", " 15"):
            with self.subTest(columns):
                self.assertPrints(self.given, self.natural, env=environment(COLUMNS=columns))

    def test_width_goes_before_columns(self):
        self.assertPrints(self.given, self.narrow, "--width", "15", "--all-columns", env=environment(COLUMNS="80"))

    def test_width_none_goes_before_columns(self):
        self.assertPrints(self.given, self.natural, "--width", "none", env=environment(COLUMNS="15"))

    def test_an_empty_environment_says_none(self):
        self.assertPrints(self.given, self.natural, env={})

    def test_columns_that_fit_are_shown(self):
        self.assertRowsPrint(FITTING, "--delimiter=,")

    def test_a_pipe_gets_all_columns_in_the_width_of_the_environment(self):
        wanted = next(wanted for words, _, wanted in FITTING if "--all-columns" in words).encode()
        self.assertPrints(FOUR.encode(), wanted, "--delimiter=,", env=environment(COLUMNS="21"))

    def test_documents_and_records_leave_no_column_out(self):
        document = b"| aaaa | bbbb | cccc | dddd |\n|:-----|:-----|:-----|:-----|\n| x    | y    | z    | w    |\n"
        self.assertPrints(FOUR.encode(), document, "--delimiter=,", "--style=markdown", env=environment(COLUMNS="5"))
        records = b"-[ RECORD \naaaa | x\nbbbb | y\ncccc | z\ndddd | w\n"
        self.assertPrints(FOUR.encode(), records, "--delimiter=,", "--expanded", "--width", "10")


def faults_of_styles(table):
    """What is wrong with the styles of a table: a border, a fill at its side or the end of a line that has one."""
    for line in table.split("\n"):
        are_open = set()
        for part in re.split("(\x1b\\[[0-9;]*m)", line):
            code = SGR.fullmatch(part)
            if code:
                are_open = set() if code[1] in ("", "0") else are_open - {it for it in are_open if ENDS[it] == code[1]} | ({code[1]} if code[1] in ENDS else set())
            elif are_open and set(part) & set("╭╮╰╯├┤┬┴┼─│"):
                return [f"a border in a style, of {line!r}"]
        if are_open:
            return [f"a style that stays open, of {line!r}"]
    return []


class Narrow(Basinmug):
    """Wide characters and colours in a width."""

    def test_wide_characters_and_tabs(self):
        self.assertRowsPrint(NARROW, "--delimiter=,")

    def test_without_its_colours_a_table_is_that_of_the_text_without_its_own(self):
        for width in ("none", "40", "30", "24", "20", "5"):
            for more in ([], ["--truncate"], ["--style", "ascii", "--rules", "all"]):
                with self.subTest(f"--width {width} {' '.join(more)}"):
                    asked = [self.program, "--delimiter=,", "--width", width, *more]
                    colored, plain = (ended(asked, text.encode()) for text in (COLORED, SGR.sub("", COLORED)))
                    table = colored.stdout.decode()
                    self.assertEqual((colored.returncode, plain.returncode, "\x1b[" in table), (0, 0, True))
                    self.assertSame(SGR.sub("", table), plain.stdout.decode())
                    self.assertEqual(faults_of_styles(table), [])


class Markdown(Basinmug):
    """Tables for documents, which no width narrows: a header always, and below it the line that says how texts are aligned."""

    def test_a_document_is_the_same_in_any_width_and_with_any_rules(self):
        given = b"name,size\na|b,1\n\"two\nlines\",20\nc\\d,3\n"
        wanted = b"| name         | size |\n|:-------------|-----:|\n| a\\|b         |    1 |\n| two<br>lines |   20 |\n| c\\\\d         |    3 |\n"
        for name, words, env in (
            ("as it is", [], environment()),
            ("with COLUMNS", [], environment(COLUMNS="10")),
            ("with --width none", ["--width", "none"], environment()),
            ("with --rules all", ["--rules", "all"], environment()),
            ("with --rules none", ["--rules", "none"], environment()),
        ):
            with self.subTest(name):
                self.assertPrints(given, wanted, "--delimiter=,", "--style", "markdown", *words, env=env)

    def test_documents(self):
        self.assertRowsPrint(DOCUMENTS, "--delimiter=,", "--style", "markdown")

    def test_a_name_that_no_empty_header_has_is_reported(self):
        words = ["--delimiter=,", "--style", "markdown", "--no-header", "--color", "a=red"]
        self.assertRefuses(b"a,b\n", b"basinmug: there is no column a\n", *words)


class Records(Basinmug):
    """Records one below the other, for which `--width` and `--truncate` alone have an effect of the options of width and look."""

    def test_records(self):
        self.assertRowsPrint(RECORDS, "--delimiter=,", "--expanded", env=environment())

    def test_records_are_as_wide_as_columns_says(self):
        for columns, wanted in (("5", "-[ RE\na | x\n  | y\n"), ("14", "-[ RECORD 0 ]-\na | xy\n"), ("0", "-[ RECORD 0 ]-\na | xy\n")):
            with self.subTest(columns):
                self.assertPrints(b"a\nxy\n", wanted.encode(), "--delimiter=,", "--expanded", env=environment(COLUMNS=columns))

    def test_no_line_ends_with_a_style_open(self):
        given = b"a\n\x1b[9mstruck\nseen\n"
        wanted = b"-[ RECORD 0 ]-\na | \x1b[9mstruck\x1b[29m\n-[ RECORD 1 ]-\na | seen\n"
        self.assertPrints(given, wanted, "--delimiter=,", "--expanded", env=environment())

    def test_wrong_arguments_stay_so(self):
        words = "--delimiter=, --expanded --width 5 --truncate --style markdown --color a=red --rules all"
        self.assertRefuses(b"a\n1|2\n", b"basinmug: markdown takes no width\n", *words.split(), status=2)


class Words(Basinmug):
    """Wrong arguments, the help and the version."""

    def test_wrong_arguments_are_reported(self):
        for words, said in FAULTY:
            with self.subTest(f"{words}"):
                if said is not None:
                    self.assertRefuses(b"", said.encode(), *words, status=2)
                    continue
                ran = ended([self.program, *words])
                self.assertEqual((ran.returncode, ran.stdout), (2, b""))
                self.assertTrue(ran.stderr.startswith(b"error: ") and ran.stderr.endswith(b"\nFor more information, try '--help'.\n"), ran.stderr)

    def test_control_characters_of_arguments_are_shown_by_their_pictures(self):
        for words in (["--sty\x1b[31mle", "x"], ["--style", "ro\x1b]0;name\x07und"], ["a\rb", "c\nd"], ["--wid\x9bth=3"]):
            with self.subTest(f"{words}"):
                ran = ended([self.program, *words])
                said = ran.stderr.decode()
                self.assertEqual(ran.returncode, 2)
                self.assertEqual([it for it in said if it != "\n" and (it < " " or "\x7f" <= it <= "\x9f")], [])
                self.assertNotIn("c\nd", said)
                self.assertTrue(any(it in said for it in "\u241b\u240a\ufffd"), said)

    def test_an_argument_that_is_not_utf_8_is_reported(self):
        self.assertRefuses(b"", b"basinmug: an argument is not UTF-8\n", b"\xff", status=2)

    def test_the_help_is_printed(self):
        for words in (["--help"], ["-h"], ["--width", "6", "--help"]):
            with self.subTest(f"{words}"):
                ran = ended([self.program, *words])
                self.assertEqual((ran.returncode, ran.stderr), (0, b""))
                for part in ("Prints CSV or TSV as a table.", "Usage: basinmug [OPTIONS] [FILE]", "Input:", "Width:", "Look:", "Rows:", "Examples:", "Exit status:"):
                    self.assertIn(part, ran.stdout.decode())

    def test_the_version_is_printed(self):
        for word in ("--version", "-V"):
            with self.subTest(word):
                self.assertPrints(b"", b"basinmug 0.1.0\n", word)


class Outputs(streams.Outputs, Basinmug):
    """Standard output that takes nothing is an error. Where its reader leaves, the program ends, and nothing is said."""

    given, refused = TABS, b"\xff"
    full = b"basinmug: No space left on device (os error 28)\n"
    closed = b"basinmug: Bad file descriptor (os error 9)\n"
    large, front = b"a\n" + b"x\n" * 200_000, "╭───╮\n│ ".encode()
    left = 0, b""


class Large(Basinmug):
    """A real size."""

    def test_100000_records_of_five_fields_take_a_minute_at_most(self):
        lines = [f"{at},2026-11-{1 + at % 30:02},user{at % 977},some words of note {at},{at * 7 % 1000}" for at in range(100_000)]
        path = self.written("large.csv", ("id,date,user,note,hours\n" + "\n".join(lines) + "\n").encode())
        rows = [line.split(",") for line in ["id,date,user,note,hours", *lines]]
        measures = [max(len(row[column]) for row in rows) for column in range(5)]
        drawn = [f"│{'│'.join(f' {cell:>{width}} ' if column in (0, 4) else f' {cell:<{width}} ' for column, (cell, width) in enumerate(zip(row, measures)))}│\n" for row in rows]

        def border(left, middle, right):
            return left + middle.join("─" * (width + 2) for width in measures) + right + "\n"

        begun = time.monotonic()
        self.assertPrints(b"", (border("╭", "┬", "╮") + drawn[0] + border("├", "┼", "┤") + "".join(drawn[1:]) + border("╰", "┴", "╯")).encode(), path)
        self.assertLess(time.monotonic() - begun, 60)

    def test_a_record_of_10000_fields(self):
        wanted = f"╭{'┬'.join(['───'] * 10_000)}╮\n│{'│'.join([' a '] * 10_000)}│\n╰{'┴'.join(['───'] * 10_000)}╯\n".encode()
        self.assertPrints(b"\t".join([b"a"] * 10_000) + b"\n", wanted)

    def test_a_list_of_12000_columns(self):
        colors = ",".join(f"{at}=red" for at in range(1, 12_000))
        self.assertPrints(b"a\tb\n", "╭───┬───╮\n│ a │ \x1b[31mb\x1b[39m │\n╰───┴───╯\n".encode(), "--color", colors)


def measure(line):
    """The columns of a line without combining characters."""
    return sum(2 if unicodedata.east_asian_width(it) in "WF" else 1 for it in line)


def screen_of(columns, name, command):
    """What a terminal of so many columns shows of a command, by a server of its own, of this name: one that ends is in
    the way of the next of its name for a while."""
    tmux = ["tmux", "-u", "-f", "/dev/null", "-L", name]
    subprocess.run([*tmux, "new-session", "-d", "-x", str(columns), "-y", "60", command], check=True, env=environment(TERM="xterm-256color"))
    time.sleep(2)
    screen = subprocess.run([*tmux, "capture-pane", "-p"], stdout=subprocess.PIPE, check=True, text=True).stdout
    subprocess.run([*tmux, "kill-server"], check=True)
    return [line for line in screen.splitlines() if line]


class Terminals(Basinmug):
    """What terminals show."""

    @unittest.skipUnless(shutil.which("tmux"), "no tmux: terminals of 80 and of 40 columns are not tried")
    def test_lines_are_equally_wide_and_the_terminal_breaks_none(self):
        for columns in (80, 40):
            for at, path in enumerate((self.written("notes.csv", NOTES.encode()), f"{ROOT}/examples/notes.csv")):
                with self.subTest(f"{columns} columns, {os.path.relpath(path, ROOT)}"):
                    lines = screen_of(columns, f"basinmug-{os.getpid()}-{columns}-{at}", f"COLUMNS={columns} {self.program} {path}; sleep 5")
                    self.assertStraight(lines, columns)

    @unittest.skipUnless(shutil.which("tmux"), "no tmux: the launcher is not tried on terminals of 80 and of 40 columns")
    def test_the_launcher_reports_the_width_of_the_terminal(self):
        launcher, started = launched(self.folder)
        os.symlink(self.program, started)
        for columns in (80, 40):
            with self.subTest(f"{columns} columns"):
                path = f"{ROOT}/examples/notes.csv"
                lines = screen_of(columns, f"basinmug-{os.getpid()}-launched-{columns}", f"{launcher} {path}; sleep 5")
                self.assertStraight(lines, columns)
                self.assertEqual(lines, ended([self.program, "--width", str(columns), path]).stdout.decode().splitlines())

    def assertStraight(self, lines, columns):
        """Lines of a table whose edges are straight and that fit so many columns; one below it may count what is left out."""
        lines = [line for line in lines if not re.fullmatch(r"\(\d+ of \d+ columns\)", line)]
        self.assertEqual([line for line in lines if measure(line) > columns or line[0] not in "╭│├╰" or line[-1] not in "╮│┤╯"], [])
        self.assertEqual(len({measure(line) for line in lines}), 1)
        self.assertGreater(len(lines), 10)


class Page(Basinmug):
    """The examples of the README: two whose tables are in examples/, drawn as pictures, and one that it shows itself."""

    def setUp(self):
        super().setUp()
        form = r"^    \$ basinmug (.*) (examples/\S+)\n(?:\n!\[.*\]\(docs/(.*)\.svg\)\n|((?:    .*\n)+))"
        self.found = re.findall(form, read("README.md").decode(), re.M)

    def test_the_pictures_are_of_their_tables(self):
        for name in ("notes", "notes_cut"):
            with self.subTest(name):
                drawn = ended([sys.executable, f"{ROOT}/docs/picture"], read(f"examples/{name}.table"))
                self.assertSame(drawn.stdout, read(f"docs/{name}.svg"))

    def test_the_page_has_three_examples(self):
        self.assertEqual([it[2] for it in self.found], ["notes", "notes_cut", ""])

    def test_the_commands_on_the_page_print_its_tables(self):
        for words, name, picture, table in self.found:
            with self.subTest(words):
                wanted = read(f"examples/{picture}.table") if picture else re.sub("^    ", "", table, flags=re.M).encode()
                self.assertPrints(b"", wanted, *words.split(), f"{ROOT}/{name}")

    def test_examples_of_the_manual_page_run(self):
        shown = manual_examples("basinmug")
        self.assertGreaterEqual(len(shown), 7)
        shutil.copy(f"{ROOT}/examples/notes.csv", f"{self.folder}/notes.csv")
        self.written("words.txt", b"a b\n1 2\n")
        self.written("old.csv", "name;city\nJosé;Köln\n".encode("cp1252"))
        self.written("long.csv", b"a,b\n" + b"1,2\n" * 1000)
        for command in shown:
            with self.subTest(command):
                ran = called(command, "basinmug", self.program, self.folder)
                self.assertEqual((ran.returncode, ran.stderr), (0, b""))
                self.assertTrue(ran.stdout or os.path.getsize(f"{self.folder}/{command.rpartition('> ')[2]}"), "nothing is printed")

    def test_commands_of_all_pages_run(self):
        """On files of these names; without one they read two records."""
        os.mkdir(f"{self.folder}/examples")
        for name in ("examples/notes.csv", "notes.csv", "long.csv", "big.csv", "x.csv"):
            shutil.copy(f"{ROOT}/examples/notes.csv", f"{self.folder}/{name}")
        self.written("words.txt", b"a b\n1 2\n")
        self.written("old.csv", "name;city\nJosé;Köln\n".encode("cp1252"))
        shown = {it.line: it.page for it in calls() if it.program == "basinmug"}
        self.assertGreaterEqual(len(shown), 16)
        for command, page in shown.items():
            with self.subTest(f"{page}: {command}"):
                ran = called(command, "basinmug", self.program, self.folder, b"a,b\n1,2\n3,4\n")
                self.assertEqual((ran.returncode, ran.stderr), (0, b""))

    @unittest.skipIf(other_program("basinmug"), "another program is tested")
    def test_make_show_prints_the_first(self):
        """In colours where the page requests them."""
        shows = {it.page: it.line for it in calls() if it.line.startswith("make show ")}
        self.assertEqual({*shows}, {"README.md", "docs/PAPER.md"})
        wanted = read("examples/notes.table")
        for page, line in shows.items():
            with self.subTest(page):
                table = wanted if "--color" in line else re.sub(b"\x1b\\[[0-9;]*m", b"", wanted)
                self.assertSame(ended(["sh", "-c", line], cwd=ROOT).stdout, table)

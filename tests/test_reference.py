"""Holds the built library and program to a reference, written apart from them (reference.py), in random cases.

The reference is held to the tables of other tests, which are written by hand. tests/long/test_cases.py runs a million cases.
"""
import os
import re
import unittest

import reference
import test_basinmug
import test_hostile
import test_memory
from common import ROOT, Case, ended, program, read
from random_cases import Case as RandomCase
from random_cases import Library, difference
from reference import Asked, Refused

SHARED = f"{ROOT}/lib/libbasinmug.so.0"
# How many cases the library prints, and how many the program.
CALLS, RUNS = 4000, 300
# The names that arguments have for numbers of the header.
NAMES = {
    "style": ["ascii", "modern", "extended", "empty", "rounded", "markdown"], "rules": ["header", "all", "none"],
    "escapes": ["colors", "all", "none"], "priority": ["none", "min", "max", "left", "right"],
}
FLAGS = ("truncate", "expanded", "all_columns", "no_header")
GUESS = "(perhaps WINDOWS-1252: iconv -f WINDOWS-1252 -t UTF-8)"


def by_words(words, **more):
    """What arguments request."""
    asked, left = dict(more), re.sub(r"(--[a-z-]+)=", r"\1 ", words).split()
    while left:
        name = left.pop(0)[2:].replace("-", "_")
        value = 1 if name in FLAGS else left.pop(0)
        if name == "delimiter":
            value = {"tab": 9, "auto": 0}.get(value, ord(value[0]))
        elif name in NAMES:
            value = NAMES[name].index(value)
        elif name in ("columns", "align", "color"):
            value = value.encode()
        elif name not in FLAGS:
            value = None if value == "none" else int(value)
        asked[name] = value
    return Asked(**asked)


def words_of(asked):
    """The arguments of a request."""
    words = []
    for name, value in asked._asdict().items():
        if name in FLAGS:
            words += [f"--{name.replace('_', '-')}"] if value else []
        elif name in NAMES:
            words.append(f"--{name}={NAMES[name][value]}")
        elif name == "delimiter":
            words.append(f"--delimiter={chr(value) if value else 'auto'}")
        elif value not in (None, b"") and not (name == "head" and value == 0):
            words.append(f"--{name.replace('_', '-')}={value.decode() if isinstance(value, bytes) else value}")
    return words


def wrong_word(asked):
    """What the program says of wrong arguments, the first in its own order; empty where none is wrong."""
    if asked.head and asked.tail is not None:
        return "basinmug: --head and --tail exclude each other\n"
    if asked.style == reference.MARKDOWN and asked.width is not None:
        return "basinmug: markdown takes no width\n"
    for said, alone in (
        (test_basinmug.BAD_ALIGNMENT, Asked(align=asked.align)),
        (test_basinmug.BAD_COLOR, Asked(color=asked.color)),
        (test_basinmug.BAD_COLUMNS, Asked(columns=asked.columns)),
    ):
        try:
            reference.checked(alone)
        except Refused:
            return said
    return ""


def tables():
    """Arguments, a text and its table, of other tests."""
    for rows, more in (
        ([*test_basinmug.TABLES, *test_basinmug.TOO_NARROW, *test_basinmug.NARROW, *test_basinmug.FITTING], {"delimiter": 44}),
        (test_basinmug.DOCUMENTS, {"delimiter": 44, "style": reference.MARKDOWN}),
        (test_basinmug.RECORDS, {"delimiter": 44, "expanded": 1}),
        ([it for it in test_memory.RECORDS if it[2] is not None], {"delimiter": 44}),
        ([("", *it) for it in test_basinmug.FIRST_LINES], {}),
        ([it for it in test_basinmug.HEADS if "--head 0" not in it[0]], {}),
        ([("", test_hostile.in_csv(cell), test_hostile.boxed(shown)) for cell, shown in test_hostile.TEXTS.values()], {"delimiter": 44}),
    ):
        for words, given, wanted in rows:
            yield by_words(words, **more), given.encode(), wanted.encode()
    for name, words in (("grep.csv", "--delimiter ,"), ("ls.tsv", "--delimiter tab"), ("links.tsv", "--delimiter tab"), ("compiler.txt", "--delimiter tab")):
        yield by_words(f"--no-header {words}"), read(f"tests/hostile/{name}"), read(f"tests/hostile/{name.partition('.')[0]}.table")


class Reference(Case):
    """What the reference prints."""

    def test_tables_that_are_written_by_hand(self):
        for asked, given, wanted in tables():
            with self.subTest(f"{asked} {given!r}"):
                self.assertSame(reference.printed(asked, given)[0], wanted)

    def test_errors_that_are_written_by_hand(self):
        for given, fault in test_basinmug.REFUSED:
            line, field = re.match(r"line (\d+)(?:, field (\d+))?", fault).groups("0")
            with self.subTest(f"{given!r}"), self.assertRaises(Refused) as refused:
                reference.printed(Asked(delimiter=44), given)
            self.assertEqual((refused.exception.line, refused.exception.field), (int(line), int(field)))


class Cases(Case):
    """Random cases."""

    @classmethod
    def setUpClass(cls):
        cls.program = program("basinmug")
        cls.library = Library(os.environ.get("TEST_LIBRARY", SHARED))

    def test_the_library_prints_what_the_reference_does(self):
        for number in range(CALLS):
            self.assertEqual(difference(self.library, RandomCase(number)), "")

    def test_the_program_prints_and_says_what_the_reference_does(self):
        for number in range(CALLS, CALLS + RUNS):
            case = RandomCase(number)
            if case.is_known and case.cells is None and max(case.asked.max_rows or 0, case.asked.tail or 0, case.asked.head) < 2**32:
                with self.subTest(case):
                    self.assertRuns(case.asked, case.text)

    def assertRuns(self, asked, text):
        """The program ends as the reference says."""
        if any(it.decode(errors="replace").encode() != it for it in (asked.columns, asked.align, asked.color)):
            return  # no argument
        try:
            bad = wrong_word(asked)
            out, wider = reference.printed(asked, text) if not bad else (b"", False)
            status, said = (2, bad.encode()) if bad else (0, test_basinmug.WIDER if wider else b"")
        except Refused as refused:
            status, out, said = 1, b"", f"basinmug: {self.told(refused)}\n".encode()
        ran = ended([self.program, *words_of(asked)], text)
        self.assertEqual((ran.returncode, ran.stderr), (status, said))
        self.assertSame(ran.stdout, out)

    def told(self, refused):
        """What is said of an error."""
        if refused.status == reference.NO_COLUMN:
            return "there is no column " + "".join(reference.shown_character(it, reference.COLORS) if it != "\n" else "␊" for it in refused.name)
        place = f"standard input: line {refused.line}"
        if refused.status == reference.QUOTE:
            return f"{place}: a quote that is not closed"
        what = f"not UTF-8 {GUESS}" if refused.status == reference.NOT_UTF8 else "an escape that begins no sequence"
        return f"{place}, field {refused.field}: {what}"


if __name__ == "__main__":
    unittest.main()

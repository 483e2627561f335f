#!/usr/bin/env python3
"""Compares tables in expanded form with a plain model of their definitions, on random texts.

  bench/compared/expanded.py MODEL [--cases 10000] [--seed 1] [--show 3] [--program FILE]

MODEL is a folder with Python modules that were written apart from these crates: `extended`, with a class
`ExtendedTable`. It is no part of the repository. The tables are made by a small program
(expanded.source), which `rt try` builds on a copy of the crates, with no proof, or which is given by --program.
The last line says how many tables differ.
"""
import collections
import os
import random
import sys

sys.dont_write_bytecode = True
sys.path.insert(0, os.path.dirname(os.path.abspath(__file__)))
from common import Count, answers, arguments, escaped, modules, numbered

LIBRARIES = "grid_config tabled_expanded"
PIECES = "a|b|xyz|word|name| |abcdefghijklm|漢|é|😳|\u0301|\n|\t|\r|'|\"|\\|\0|\x01|\x1f|\x7f|\x80|\x9f|\xa0|\x1b[31m|\x1b[39m|\x1b[0m".split("|")
SUFFIXES = ("", "", ".", "..", "…😳", "\x1b[1m.\x1b[22m", "......")


def random_text(seeded):
    return "".join(seeded.choice(PIECES) for _ in range(seeded.choice((0, 1, 1, 2, 2, 3, 6))))


class Refused(Exception):
    """What a template returns in place of a text."""


def refusing(record):
    if record:
        raise Refused
    return "first"


# what the heads are made by, under the numbers by which the program knows them
HEADS = (lambda record: f"r{record}", lambda record: "", lambda record: f"é漢{record}", lambda record: "a head longer than a line", refusing)


def told(table):
    """What a table is printed as."""
    try:
        return f"text ok .{escaped(table.to_string())}"
    except Refused:
        return "text range"


def random_table(model, seeded):
    """The commands of a table, and the lines that they must print."""
    escapes = seeded.random() < 0.4
    columns = 2 if escapes else seeded.choice((0, 1, 2, 2, 3))
    rows = [[random_text(seeded) for _ in range(columns if escapes else max(0, columns + seeded.choice((-1, 0, 0, 0, 1))))] for _ in range(seeded.choice((0, 1, 2, 2, 3, 4, 12)))]
    commands = [" ".join(["row", *map(numbered, row)]) for row in rows] + ["new" if escapes else "rows", "text"]
    table = model.ExtendedTable.new([list(zip("01", row)) for row in rows]) if escapes else model.ExtendedTable.from_rows(rows)
    if escapes and not rows:
        table.fields = ["0", "1"]
    wanted = [told(table)]
    for _ in range(seeded.choice((0, 1, 1, 2))):
        most, suffix = seeded.choice((seeded.randint(0, 16), seeded.randint(13, 30), seeded.randint(0, 80))), seeded.choice(SUFFIXES)
        commands += [f"truncate {most} {numbered(suffix)}", "text"]
        wanted += [f"cut {str(table.truncate(most, suffix)).lower()}", told(table)]
    heads = seeded.randrange(len(HEADS))
    commands += [f"heads {heads}", "text"]
    wanted += [told(model.ExtendedTable(table.fields, table.records, HEADS[heads])), told(table)]
    return commands, wanted


def main():
    given = arguments(__doc__, 10_000).parse_args()
    extended, = modules(given.model, "extended")
    count, lines = Count(given), collections.Counter()
    cases = [random_table(extended, random.Random(f"{given.seed} {it}")) for it in range(given.cases)]
    described = ["\n".join(commands) for commands, _ in cases]
    sizes = [len(wanted) for _, wanted in cases]
    for number, ((commands, wanted), found) in enumerate(zip(cases, answers("expanded", LIBRARIES, given.program, described, sizes, "\n"))):
        lines.update("text" if it.startswith("text ok .") and it != "text ok ." else it for it in wanted)
        if found != wanted:
            count.differs(number, [*commands, "wanted", *wanted, "found", *found])
    count.close(f"{lines['text']} texts, {lines['cut true']} cut, {lines['cut false']} without room, {lines['text range']} refused")


if __name__ == "__main__":
    main()

#!/usr/bin/env python3
"""Compares the two tables over a source of rows with a plain model of their definitions, on random tables.

  bench/compared/streamed.py MODEL [--cases 10000] [--seed 1] [--show 3] [--program FILE]

MODEL is a folder with Python modules that were written apart from these crates: those that grids takes,
and `tables`, with `iter_table(rows, config, sniff, columns, keep_rows, width, height)` and
`compact_table(rows, config, columns, width, keep_rows, skip)`, which return a text or raise a `Fault`. It is
no part of the repository. The tables are made by a small program (streamed.source), which `rt try`
builds on a copy of the crates, with no proof, or which is given by --program. The last line says how many
differ, and in which of the two.
"""
import collections
import os
import random
import sys

sys.dont_write_bytecode = True
sys.path.insert(0, os.path.dirname(os.path.abspath(__file__)))
from common import Count, answers, arguments, modules
import grids

LIBRARIES = "grid_config tabled_compact tabled_size"
TABLES = ("IterTable", "CompactTable")
# how many widths a list has, which is a constant of the program
LIST = 8


def random_set(seeded):
    """What is set of a table: columns, sniffed and kept rows, width, height, rows that are passed over."""
    def some(share, values):
        return seeded.choice(values) if seeded.random() < share else None
    given = {
        "columns": some(0.85, (0, 1, 2, 2, 3, 3, 4, 4, 5, 7)),
        "sniff": some(0.6, (0, 1, 1, 2, 3, 10)),
        "rows": some(0.4, (0, 1, 2, 3, 9)),
        "width": some(0.4, (0, 1, 2, 3, 4, 6, 12)),
        "height": some(0.35, (0, 1, 2, 3)),
        "skip": some(0.3, (0, 1, 1, 2, 9)),
    }
    if seeded.random() < 0.02 and (given["columns"] or 0) > 1:
        # of two columns the lines pass the range
        given["width"] = 1 << 63
    return given


def random_table(grids, model, tables, seeded):
    pieces = [*grids.PIECES, grids.ESCAPE] if seeded.random() < 0.2 else grids.PIECES
    most = seeded.choice((0, 1, 2, 3, 3, 4, 5))
    rows = [[grids.random_text(seeded, pieces) for _ in range(most if seeded.random() < 0.7 else seeded.randint(0, 6))]
            for _ in range(seeded.choice((0, 1, 2, 3, 3, 4, 5, 6)))]
    config = grids.compact_config(model, grids.random_config(model, seeded, len(rows), most))
    config.calls.pop("color", None)
    given = random_set(seeded)
    widths = [] if seeded.random() < 0.3 else [seeded.randint(0, 5) for _ in range(LIST)]
    is_read = seeded.random() < 0.5
    table = rows, config, given, widths, is_read
    if widths and seeded.random() < 0.92:
        widen(model, tables, table)
    return table


def widen(model, tables, table):
    """Widths that the compact table fits."""
    for _ in range(400):
        try:
            compact_text(tables, table)
            return
        except model.Fault as fault:
            if fault.name != "Room":
                return
            table[3][fault.fields["column"]] += 1


def iter_text(tables, table):
    rows, config, given, _, _ = table
    sniff = 1000 if given["sniff"] is None else given["sniff"]
    return tables.iter_table(rows, config, sniff, given["columns"], given["rows"], given["width"], given["height"])


def compact_text(tables, table):
    rows, config, given, widths, _ = table
    width = widths or (2 if given["width"] is None else given["width"])
    return tables.compact_table(rows, config, given["columns"] or 0, width, given["rows"], given["skip"] or 0)


def wanted(model, tables, name, table):
    try:
        text = iter_text(tables, table) if name == "IterTable" else compact_text(tables, table)
        return "ok", f".{text}"
    except model.Fault as fault:
        where = f" {fault.fields['row']} {fault.fields['column']}" if fault.name == "Room" else ""
        return fault.name.lower() + where, "."


def description(grids, table):
    rows, config, given, widths, is_read = table
    yield from (" ".join(["row", *map(grids.numbered, row)]) for row in rows)
    yield from (f"{name} {value}" for name, value in given.items() if value is not None)
    if widths:
        yield " ".join(["widths", *map(str, widths)])
    if is_read:
        yield "read"
    yield from grids.compact_description(config)


def main():
    given = arguments(__doc__, 10_000).parse_args()
    model, count, outcomes = grids.loaded(given.model), Count(given), collections.Counter()
    tables, = modules(given.model, "tables")
    made = [random_table(grids, model, tables, random.Random(f"{given.seed} {it}")) for it in range(given.cases)]
    described = ["\n".join(description(grids, it)) for it in made]
    for number, (table, lines) in enumerate(zip(made, answers("streamed", LIBRARIES, given.program, described, [2 * len(TABLES)] * given.cases))):
        found = grids.outcomes(lines)
        for name in TABLES:
            want = wanted(model, tables, name, table)
            outcomes[name, want[0].split()[0] if want[1] == "." else "text"] += 1
            if found.get(name) != want:
                count.differs(number, [*description(grids, table), f"wanted {want!r}", f"found  {found.get(name)!r}"], name)
    count.close(", ".join(f"{name} {number} {'empty' if kind == 'ok' else kind}" for (name, kind), number in sorted(outcomes.items())))


if __name__ == "__main__":
    main()

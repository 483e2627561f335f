#!/usr/bin/env python3
"""Compares tables after lists of settings with a plain model of their definitions, on random rows.

  bench/compared/lists.py MODEL [--cases 20000] [--seed 1] [--show 3] [--program FILE]

MODEL is a folder with Python modules that were written apart from these crates: those that grids takes,
`options`, with the steps of settings by their names and the amounts that they take, and `tables`, with a class
`Table` that runs lists of them. It is no part of the repository. A case is a table of plain or of coloured
texts, a list of up to four settings, and an amount. Compared are: which setting is refused and why, the sizes
that are kept, the table's totals, what the amount measures then, the texts of the cells, and the printed text or
why it is refused. The tables are made by a small program (lists.source), which `rt try` builds on a copy of
the crates, with no proof, or which is given by --program. The last line says how many cases differ, and in what.
"""
import collections
import itertools
import os
import random
import sys

sys.dont_write_bytecode = True
sys.path.insert(0, os.path.dirname(os.path.abspath(__file__)))
from common import Count, answers, arguments, escaped, modules
import grids

LIBRARIES = "grid_config grid_records_traits tabled tabled_size tabled_size_priority"
COMPARED = ("refusals", "widths", "heights", "totals", "amounts", "texts", "pictures")
PLAIN = "a|b|xyz|word|long words|漢|表示|😳|é|\u0301|👩\u200d🔬|\u200b| |  |\n|\n|\t|-|\\".split("|")
COLORED = [*PLAIN, *"\x1b[31m|\x1b[1;4m|\x1b[39m|\x1b[0m|\x1b[38;5;9m|\x1b[44m|\x1b]8;;http://a\x07|\x1b]8;;\x07|\x1b[2K".split("|")]
SUFFIXES = ("", ".", "...", "漢", "\x1b[31m.\x1b[39m")
CHOICES = ("None", "Left", "Right", "MinLeft", "MinRight", "MaxLeft", "MaxRight")
# more columns or lines are not printed
MOST = 200
# of such a size a text would pass what memory holds, so only sizes of the table are set to it
GREAT = ((1 << 64) - 1, (1 << 64) - 2, 1 << 63, 1 << 40)


def random_amount(seeded, near, is_great=False):
    kind = seeded.random()
    if is_great and kind < 0.06:
        return "Exact", seeded.choice(GREAT)
    if kind < 0.7:
        return "Exact", seeded.choice((0, 1, 2, 3, 4, 5, seeded.randint(0, near), seeded.randint(0, 2 * near)))
    if kind < 0.9:
        return seeded.choice((("Max",), ("Min",)))
    return "Percent", seeded.choice((0, 50, 100, 150, seeded.randint(0, 300), 1 << 63))


def random_limit(seeded):
    return seeded.choice(("Cut", "Ignore", ("Replace", seeded.choice("x漢\u0301 "))))


def random_list(seeded, count, most):
    sizes = [seeded.randint(0, most) for _ in range(count + seeded.choice((-1, 0, 0, 0, 1)))]
    if sizes and seeded.random() < 0.05:
        sizes[0] = seeded.choice(GREAT)
    return sizes


def random_setting(model, seeded, rows, columns):
    name = seeded.choice(list(model.STEPS))
    at = grids.random_entity(seeded, rows, columns)
    wide = {"width": random_amount(seeded, 12 * max(columns, 1), True), "priority": seeded.choice(CHOICES)}
    high = {"height": random_amount(seeded, 4 * max(rows, 1), True), "priority": seeded.choice(CHOICES)}
    cut = {"suffix": seeded.choice(SUFFIXES), "limit": random_limit(seeded), "multiline": seeded.random() < 0.5, "try_color": seeded.random() < 0.5}
    narrow, low = {"at": at, "width": random_amount(seeded, 6)}, {"at": at, "height": random_amount(seeded, 4)}
    words = {"keep_words": seeded.random() < 0.5}
    place = {"position": (seeded.randrange(rows + 1), seeded.randrange(columns + 1)), "number": seeded.choice((0, 1, 1, 2, 2, 3))}
    fields = {
        "Wrap": {**wide, **words}, "CellWrap": {**narrow, **words}, "Truncate": {**wide, **cut}, "CellTruncate": {**narrow, **cut},
        "MinWidth": wide, "CellMinWidth": {**narrow, "fill": seeded.choice(" .漢\u0301")}, "Justify": {"width": random_amount(seeded, 6)},
        "WidthList": {"list": random_list(seeded, columns, 9)}, "HeightList": {"list": random_list(seeded, rows, 4)},
        "HeightIncrease": high, "HeightLimit": high, "CellHeightIncrease": low, "CellHeightLimit": low, "ColumnSpan": place, "RowSpan": place,
        "Margin": {"value": grids.random_sides(model, seeded, 3)}, "Borders": {"value": grids.random_borders(seeded)},
    }
    values = {"AlignHorizontal": "align_h", "AlignVertical": "align_v", "LineAlignment": "line_alignment", "TrimHorizontal": "trim_h",
              "TrimVertical": "trim_v", "Justification": "justification", "Padding": "padding", "Color": "color"}
    if name in values:
        return {"name": name, "at": at, "value": grids.VALUES[values[name]](model, seeded)}
    return {"name": name, **fields[name]}


def random_case(model, seeded):
    """The texts of a table, a list, and an amount to measure."""
    rows, columns = seeded.choice((0, 1, 1, 2, 2, 3, 3)), seeded.choice((1, 1, 2, 3, 4))
    pieces = COLORED if seeded.random() < 0.5 else PLAIN
    texts = [[grids.random_text(seeded, pieces) for _ in range(columns)] for _ in range(rows)]
    settings = [random_setting(model, seeded, rows, columns) for _ in range(seeded.choice((0, 1, 1, 2, 3, 4, 4)))]
    return texts, settings, random_amount(seeded, 9)


def entity_words(entity):
    return " ".join(map(str, entity)).lower()


def amount_words(amount):
    return " ".join(map(str, amount)).lower()


def limit_words(limit):
    return f"replace {ord(limit[1])}" if isinstance(limit, tuple) else limit.lower()


def numbers(values):
    return " ".join(map(str, values))


def glyph_words(borders):
    return " ".join(grids.sign(borders[it]) if borders.get(it) else "none" for it in grids.GLYPHS)


# how each field is written, in the order in which the program reads them
WRITTEN = {
    "at": entity_words, "position": numbers, "width": amount_words, "height": amount_words, "keep_words": grids.switch,
    "suffix": grids.numbered, "limit": limit_words, "multiline": grids.switch, "try_color": grids.switch, "priority": str,
    "fill": grids.sign, "number": str, "list": numbers,
}
VALUES = {
    "Padding": grids.sides_words, "Margin": grids.sides_words, "AlignHorizontal": str, "AlignVertical": str, "LineAlignment": grids.switch,
    "TrimHorizontal": grids.switch, "TrimVertical": grids.switch, "Justification": grids.sign, "Borders": glyph_words,
    "Color": grids.color_word,
}


def setting_words(setting):
    words = [write(setting[it]) for it, write in WRITTEN.items() if it in setting]
    if "value" in setting:
        words.append(VALUES[setting["name"]](setting["value"]))
    return " ".join(["set", setting["name"], *(it for it in words if it)])


def description(case, is_printed):
    texts, settings, amount = case
    yield from (" ".join(["row", *map(grids.numbered, row)]) for row in texts)
    yield from map(setting_words, settings)
    yield f"measure {amount_words(amount)}"
    yield "print" if is_printed else "leave"


def fault_words(fault):
    where = f" {fault.fields['row']} {fault.fields['column']}" if fault.name == "Room" else ""
    return fault.name.lower() + where


def kept_words(sizes):
    return "none" if sizes is None else " ".join(["kept", *map(str, sizes)])


def told(model, work):
    try:
        return str(work())
    except model.Fault as fault:
        return fault_words(fault)


def is_small(table, model):
    """Whether what is printed isn't too much."""
    try:
        return table.total_width() <= MOST and table.total_height() <= MOST
    except model.Fault:
        return True


def wanted(model, case):
    """What the model says, a line each, and whether the table is to be printed."""
    texts, settings, amount = case
    table = model.Table(texts)
    refused = table.with_list(settings)
    state, is_printed = table.state, is_small(table, model)
    lines = [f"{refused[0]} {fault_words(refused[1])}" if refused else "done", kept_words(state.widths), kept_words(state.heights)]
    lines.append(f"{told(model, table.total_width)}, {told(model, table.total_height)}")
    lines.append(f"{told(model, lambda: model.width_of(amount, state))}, {told(model, lambda: model.height_of(amount, state))}")
    lines.append("".join(f"|{escaped(text)}" for row in state.rows for text in row))
    lines.append(told(model, lambda: f"ok {escaped(table.to_string())}") if is_printed else "left")
    return lines, is_printed


def loaded(folder):
    model = grids.loaded(folder)
    options, tables = modules(folder, "options", "tables")
    model.STEPS, model.width_of, model.height_of, model.Table = options.STEPS, options.width_of, options.height_of, tables.Table
    return model


def rarest(cases, settings):
    """How many lists the rarest of these settings is in, and its name."""
    names = collections.Counter(name for case in cases for name in {it["name"] for it in case[1]})
    least, name = min((names[it], it) for it in settings)
    return f"each setting in at least {least} lists ({name})"


def main():
    given = arguments(__doc__, 20_000).parse_args()
    model, count = loaded(given.model), Count(given)
    cases = [random_case(model, random.Random(f"{given.seed} {it}")) for it in range(given.cases)]
    wants = [wanted(model, it) for it in cases]
    described = ["\n".join(description(case, is_printed)) for case, (_, is_printed) in zip(cases, wants)]
    found = answers("lists", LIBRARIES, given.program, described, [len(COMPARED)] * given.cases)
    for number, (case, (want, _), lines) in enumerate(zip(cases, wants, found)):
        for name, line, other in itertools.zip_longest(COMPARED, want, lines, fillvalue=""):
            if line != other:
                count.differs(number, [*description(case, True), f"wanted {line!r}", f"found  {other!r}"], name)
    refused = sum(want[0] != "done" for want, _ in wants)
    texts = sum(want[-1].startswith("ok ") and len(want[-1]) > 3 for want, _ in wants)
    count.close(f"{refused} lists refused, {texts} texts, {rarest(cases, model.STEPS)}")


if __name__ == "__main__":
    main()

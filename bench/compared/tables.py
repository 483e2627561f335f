#!/usr/bin/env python3
"""Compares tables with a plain model of their definitions, on random rows and random options.

  bench/compared/tables.py MODEL [--cases 5000] [--seed 1] [--show 3] [--program FILE]

MODEL is a folder with Python modules that were written apart from these crates: `tables`, with a class
`Table` of rows, `options`, with a step for each setting, and `settings`. It is no part of the repository.
The tables are made by a small program (tables.source), which `rt try` builds on a copy of the crates,
with no proof, or which is given by --program. The last line says how many tables differ.
"""
import os
import random
import sys

sys.dont_write_bytecode = True
sys.path.insert(0, os.path.dirname(os.path.abspath(__file__)))
from common import Count, answers, arguments, escaped, modules, numbered

PIECES = "a|b|xyz|word| long|漢|é|😳|\n|\n| |\x1b[31m|\x1b[39m|\x1b[0m".split("|")
LIBRARIES = "grid_config tabled"
FILLS = " .-x漢"
STYLES = ("ascii", "modern", "extended", "empty")
# whole settings of a table: alike for all cells, each by itself, lent, and with the colours of cells
WHOLE = ("compact", "spanned", "lent", "colored")


def random_text(seeded):
    return "".join(seeded.choice(PIECES) for _ in range(seeded.choice((0, 1, 1, 2, 2, 3, 5))))


def random_entity(seeded, rows, columns):
    kind = seeded.choice(("Global", "Column", "Row", "Cell"))
    row, column = seeded.randrange(rows + 1), seeded.randrange(columns + 1)
    return {"Global": (kind,), "Column": (kind, column), "Row": (kind, row), "Cell": (kind, row, column)}[kind]


def words_of(entity):
    return " ".join(str(it).lower() for it in entity)


def random_sides(model, seeded):
    def indent():
        return model.Indent(seeded.choice((0, 0, 1, 1, 2, 4)), seeded.choice(FILLS))
    return model.Sides(indent(), indent(), indent(), indent())


def sides_words(sides):
    return " ".join(f"{it.size} {ord(it.fill)}" for it in (sides.left, sides.right, sides.top, sides.bottom))


def exact(seeded, most):
    return ("Exact", seeded.randint(0, most))


def whole_step(model, seeded, kind):
    """Whole settings, given in one of four ways: they replace all that were set, and no size is kept."""
    margin, padding = random_sides(model, seeded), random_sides(model, seeded)
    style, align = seeded.choice(STYLES), seeded.choice(("Left", "Right", "Center"))
    config = model.Config(margin=margin, padding=padding, borders=model.STYLES[style], align_h=align)
    return f"{kind} {style} {align} {sides_words(margin)} {sides_words(padding)}", {"name": "Whole", "config": config}


def random_step(model, seeded, rows, columns):
    """A command, and the model's setting."""
    at = random_entity(seeded, rows, columns)
    kind = seeded.choice(("style", "margin", "padding", "padding", "align", "align", "align_v", "column_span", "row_span", "wrap", "min_width", "increase", "limit", "all_padding", "all_align", *WHOLE))
    if kind in WHOLE:
        return whole_step(model, seeded, kind)
    if kind == "all_padding":
        sides = random_sides(model, seeded)
        return f"all_padding {sides_words(sides)}", {"name": "Padding", "at": model.GLOBAL, "value": sides}
    if kind == "all_align":
        value, name = seeded.choice((("Left", "Horizontal"), ("Right", "Horizontal"), ("Center", "Horizontal"), ("Top", "Vertical"), ("Bottom", "Vertical"), ("Center", "Vertical")))
        word = "Middle" if (value, name) == ("Center", "Vertical") else value
        return f"all_align {word}", {"name": f"Align{name}", "at": model.GLOBAL, "value": value}
    if kind == "style":
        style = seeded.choice(STYLES)
        return f"style {style}", {"name": "Borders", "value": model.STYLES[style]}
    if kind == "margin":
        sides = random_sides(model, seeded)
        return f"margin {sides_words(sides)}", {"name": "Margin", "value": sides}
    if kind == "padding":
        sides = random_sides(model, seeded)
        return f"padding {words_of(at)} {sides_words(sides)}", {"name": "Padding", "at": at, "value": sides}
    if kind == "align":
        value = seeded.choice(("Left", "Right", "Center"))
        return f"align {words_of(at)} {value}", {"name": "AlignHorizontal", "at": at, "value": value}
    if kind == "align_v":
        value = seeded.choice(("Top", "Bottom", "Center"))
        word = "Middle" if value == "Center" else value
        return f"align {words_of(at)} {word}", {"name": "AlignVertical", "at": at, "value": value}
    if kind in ("column_span", "row_span"):
        place = (seeded.randrange(max(rows, 1)), seeded.randrange(max(columns, 1)))
        left = rows - place[0] if kind == "row_span" else columns - place[1]
        number = seeded.randint(0 if seeded.random() < 0.1 else 1, max(left, 1) + (seeded.random() < 0.05))
        name = "RowSpan" if kind == "row_span" else "ColumnSpan"
        return f"{kind} cell {place[0]} {place[1]} {number}", {"name": name, "position": place, "number": number}
    if kind == "wrap":
        width, keeps = exact(seeded, 30), seeded.random() < 0.5
        return f"wrap {width[1]} {int(keeps)}", {"name": "Wrap", "width": width, "keep_words": keeps}
    if kind == "min_width":
        width = exact(seeded, 40)
        return f"min_width {width[1]}", {"name": "MinWidth", "width": width}
    height = exact(seeded, 14)
    name = "HeightIncrease" if kind == "increase" else "HeightLimit"
    return f"{kind} {height[1]}", {"name": name, "height": height}


def refusal(fault):
    where = f" {fault.fields['row']} {fault.fields['column']}" if fault.name == "Room" else ""
    return fault.name.lower() + where


def printed(text):
    return f"ok .{escaped(text)}"


def told(model, work, ok):
    try:
        return ok(work())
    except model.Fault as fault:
        return refusal(fault)


def random_table(model, seeded):
    """The commands of a table, and the lines that they must print."""
    count, columns = seeded.choice((0, 1, 1, 2, 3, 3, 4)), seeded.choice((0, 1, 1, 2, 3, 4))
    rows = [[random_text(seeded) for _ in range(columns - (seeded.random() < 0.1 and columns > 1))] for _ in range(count)]
    table = model.Table.from_records(rows)
    commands = [" ".join(["row", *map(numbered, row)]) for row in rows] + ["made"]
    wanted = []
    shown_columns = len(table.state.rows[0]) if table.state.rows else 0
    for _ in range(seeded.choice((0, 1, 2, 3, 5, 8))):
        command, setting = random_step(model, seeded, count, shown_columns)
        commands.append(command)
        try:
            table.state = model.step(table.state, setting)
        except model.Fault as fault:
            wanted.append("refused " + refusal(fault))
    width = seeded.choice((None, seeded.randint(0, 40)))
    align, fill = seeded.choice((None, "Left", "Right", "Center")), seeded.choice(FILLS + "\0")
    commands += ["text", "width", "height", "copy", f"in {'none' if width is None else width} {align or 'none'} {ord(fill)}", "text"]
    text = told(model, table.to_string, printed)
    wanted += ["text " + text, "width " + told(model, table.total_width, str), "height " + told(model, table.total_height, str), "copy " + text]
    wanted += ["in " + told(model, lambda: table.to_string_in(width, align, fill), printed), "text " + text]
    return commands, wanted


def loaded(folder):
    settings, options, tables = modules(folder, "settings", "options", "tables")
    settings.Table = tables.Table
    settings.step = lambda state, setting: state._replace(cfg=setting["config"], widths=None, heights=None) if setting["name"] == "Whole" else options.step(state, setting)
    return settings


def main():
    given = arguments(__doc__, 5000).parse_args()
    model, count = loaded(given.model), Count(given)
    texts = refused = 0
    cases = [random_table(model, random.Random(f"{given.seed} {it}")) for it in range(given.cases)]
    described = ["\n".join(["name end", *commands]) for commands, _ in cases]
    sizes = [len(wanted) for _, wanted in cases]
    for number, ((commands, wanted), found) in enumerate(zip(cases, answers("tables", LIBRARIES, given.program, described, sizes, "\n"))):
        texts += sum(" ok ." in it and not it.endswith(" ok .") for it in wanted)
        refused += sum(it.split(" ")[1] in ("range", "spans", "room") for it in wanted)
        if found != wanted:
            count.differs(number, [*commands, "wanted", *wanted, "found", *found])
    count.close(f"{texts} texts, {refused} refusals")


if __name__ == "__main__":
    main()

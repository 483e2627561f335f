#!/usr/bin/env python3
"""Compares the grids with a plain model of their definitions, on random tables.

  bench/compared/grids.py MODEL [--cases 10000] [--seed 1] [--show 3] [--program FILE]

MODEL is a folder with Python modules that were written apart from these crates: `settings`, with a class
`Config` of settings by their last calls, and `grid`, with `peekable(rows, config, widths, heights)`,
`iter_grid` of the same, and `compact(rows, config, widths)`, which return a text or raise a `Fault`. It is
no part of the repository. The grids are made by a small program (grids.source), which `rt try` builds
on a copy of the crates, with no proof, or which is given by --program. The last line says how many tables
differ, and in which grid.
"""
import os
import random
import sys

sys.dont_write_bytecode = True
sys.path.insert(0, os.path.dirname(os.path.abspath(__file__)))
from common import Count, answers, arguments, modules, numbered

# the grids that are compared, and what the model calls them
GRIDS = {"PeekableGrid": "peekable", "IterGrid": "iter_grid", "CompactGrid": "compact"}
GLYPHS = """top bottom left right top_left top_right bottom_left bottom_right top_intersection bottom_intersection
    left_intersection right_intersection horizontal vertical intersection""".split()
HALF = 1 << 63
LIBRARIES = "grid_config grid_records papergrid"
PIECES = """a|b|xyz|word|漢|表示|😳|é|\u0301|👩\u200d🔬|7\ufe0f\u20e3|\u200b| |  |\u3000|\n|\n|\n\n|\x1b[31m|\x1b[1;4m|\x1b[39m|\x1b[0m|\x1b[38;5;9m|
    \x1b]8;;http://a\x07|\x1b]8;;\x07|\x1b[2K|\r|\x01|\x7f|\xad""".split("|")
# begins no sequence, or makes one of what follows
ESCAPE = "\x1b"
FILLS = " .-漢é\u0301<>"
COLORS = [("\x1b[31m", "\x1b[39m"), ("\x1b[32m", "\x1b[39m"), ("\x1b[1m", "\x1b[22m"), ("\x1b[44m", "\x1b[49m"), ("", ""), ("\x1b[4m", "")]


def random_text(seeded, pieces):
    return "".join(seeded.choice(pieces) for _ in range(seeded.choice((0, 1, 1, 2, 2, 3, 5, 8))))


def random_entity(seeded, rows, columns):
    kind = seeded.choice(("Global", "Column", "Row", "Cell"))
    row, column = seeded.randrange(rows + 1), seeded.randrange(columns + 1)
    return {"Global": (kind,), "Column": (kind, column), "Row": (kind, row), "Cell": (kind, row, column)}[kind]


def random_sides(model, seeded, most):
    def indent():
        return model.Indent(seeded.choice((0, 0, 1, seeded.randint(0, most))), seeded.choice(FILLS))
    return model.Sides(indent(), indent(), indent(), indent())


def random_color(seeded):
    return seeded.choice(COLORS) if seeded.random() < 0.6 else None


def random_colors(model, seeded):
    return model.Sides(*(random_color(seeded) for _ in range(4)))


def random_borders(seeded):
    way = seeded.random()
    if way < 0.2:
        return {}
    share = 1 if way < 0.5 else seeded.choice((0.15, 0.4, 0.8))
    signs = "+-|" if way < 0.7 else "┌─│╬é漢 "
    return {name: seeded.choice(signs) for name in GLYPHS if seeded.random() < share}


VALUES = {
    "padding": lambda model, seeded: random_sides(model, seeded, 3),
    "padding_color": random_colors,
    "align_h": lambda _, seeded: seeded.choice(("Left", "Right", "Center")),
    "align_v": lambda _, seeded: seeded.choice(("Top", "Bottom", "Center")),
    "line_alignment": lambda _, seeded: seeded.random() < 0.5,
    "trim_h": lambda _, seeded: seeded.random() < 0.5,
    "trim_v": lambda _, seeded: seeded.random() < 0.5,
    "justification": lambda _, seeded: seeded.choice(FILLS),
    "justification_color": lambda _, seeded: random_color(seeded),
    "color": lambda _, seeded: seeded.choice(COLORS),
}


def random_spans(seeded, config, rows, columns):
    """Mostly spans that stay in the table and share no place, and at times any."""
    for _ in range(seeded.choice((1, 1, 2, 3, 5))):
        row, column = seeded.randrange(rows + 1), seeded.randrange(columns + 1)
        before = config.span((row, column))
        out = seeded.random() < 0.03
        config.set_row_span((row, column), seeded.randint(1, rows + 2 if out else max(rows - row, 1)))
        config.set_column_span((row, column), seeded.randint(1, columns + 2 if out else max(columns - column, 1)))
        if not out and not config.spans_are_good(rows, columns):
            config.set_row_span((row, column), before[0])
            config.set_column_span((row, column), before[1])


def flattened(model, sides):
    """The same without a padding above or below."""
    return model.Sides(sides.left, sides.right, model.Indent(), model.Indent())


def random_config(model, seeded, rows, columns):
    config = model.Config()
    # all cells alike, which is printed in a shorter way
    is_alike = seeded.random() < 0.4
    for name, value in VALUES.items():
        if is_alike and name in ("trim_h", "trim_v") and seeded.random() < 0.8:
            continue
        for _ in range(seeded.choice((0, 0, 1, 1, 2, 3))):
            entity = ("Global",) if is_alike and name != "color" else random_entity(seeded, rows, columns)
            chosen = value(model, seeded)
            config.set(name, entity, flattened(model, chosen) if is_alike and name == "padding" and seeded.random() < 0.8 else chosen)
    if seeded.random() < 0.5:
        config.margin = random_sides(model, seeded, 3)
    if seeded.random() < 0.5:
        config.margin_color = random_colors(model, seeded)
    config.borders = random_borders(seeded)
    if seeded.random() < 0.5:
        few = COLORS[: seeded.randint(1, len(COLORS))]
        config.borders_color = {name: seeded.choice(few) for name in GLYPHS if seeded.random() < 0.7}
    if seeded.random() < (0.1 if is_alike else 0.7):
        random_spans(seeded, config, rows, columns)
    return config


def widened(model, seeded, rows, config, widths, heights):
    """Mostly sizes that the table fits."""
    if seeded.random() < 0.08:
        return
    for _ in range(400):
        try:
            model.fits(rows, config, widths, heights)
            return
        except model.Fault as fault:
            if fault.name != "Room":
                return
            widths[fault.fields["column"]] += seeded.choice((1, 1, 3))


def random_table(model, seeded):
    count, columns = seeded.choice((0, 1, 2, 3, 3, 4, 5, 9)), seeded.choice((0, 1, 2, 3, 3, 4, 5))
    is_broken = seeded.random() < 0.2
    pieces = [*PIECES, ESCAPE] if is_broken else PIECES
    rows = [[random_text(seeded, pieces) for _ in range(columns)] for _ in range(count)]
    config = random_config(model, seeded, count, columns)
    if is_broken:
        # of a text that isn't whole a trim may leave another sequence, and then it is open what that measures
        config.calls.pop("trim_h", None)
    widths = [seeded.randint(0, 5) for _ in range(columns)]
    heights = [seeded.choice((0, 1, 1, 2, 3, 6)) for _ in range(count)]
    if seeded.random() < 0.02 and count > 1 and columns > 1:
        sizes = seeded.choice((widths, heights))
        sizes[0] = sizes[1] = HALF
    widened(model, seeded, rows, config, widths, heights)
    return rows, config, widths, heights


def color_word(color):
    return f"{numbered(color[0])}/{numbered(color[1])}" if color else "none"


def sides_words(sides):
    return " ".join(f"{it.size} {ord(it.fill)}" for it in (sides.left, sides.right, sides.top, sides.bottom))


def colors_words(sides):
    return " ".join(color_word(it) for it in (sides.left, sides.right, sides.top, sides.bottom))


def switch(value):
    return "1" if value else "0"


def same(value):
    return value


def sign(value):
    return str(ord(value))


# the name of each setting in the description, and how its value is written
WRITTEN = {
    "padding": ("padding", sides_words),
    "padding_color": ("padding_color", colors_words),
    "align_h": ("alignment_horizontal", same),
    "align_v": ("alignment_vertical", same),
    "line_alignment": ("line_alignment", switch),
    "trim_h": ("trim_horizontal", switch),
    "trim_v": ("trim_vertical", switch),
    "justification": ("justification", sign),
    "justification_color": ("justification_color", color_word),
    "color": ("color", color_word),
}


def kept_color_word(color):
    """A colour of compact settings by its number, since these settings keep it for ever."""
    return str(COLORS.index(color)) if color else "none"


def kept_sides_words(sides):
    return " ".join(kept_color_word(it) for it in (sides.left, sides.right, sides.top, sides.bottom))


def compact_config(model, config):
    """What compact settings can say of these: of cells what the first one has, and their colours."""
    kept = model.Config()
    for name in ("padding", "padding_color", "align_h"):
        kept.set(name, ("Global",), config.get(name, (0, 0)))
    for entity, value in config.calls.get("color", ()):
        kept.set("color", entity, value)
    for name in ("margin", "margin_color", "borders", "borders_color"):
        setattr(kept, name, getattr(config, name))
    return kept


def compact_description(config):
    """The compact settings, by what the settings of all cells say of the first."""
    first = (0, 0)
    yield f"compact margin {sides_words(config.margin)}"
    yield f"compact margin_color {kept_sides_words(config.margin_color)}"
    yield " ".join(["compact borders", *(sign(config.borders[it]) if config.borders.get(it) else "none" for it in GLYPHS)])
    yield " ".join(["compact borders_color", *(kept_color_word(config.borders_color.get(it)) for it in GLYPHS)])
    yield f"compact padding {sides_words(config.get('padding', first))}"
    yield f"compact padding_color {kept_sides_words(config.get('padding_color', first))}"
    yield f"compact alignment_horizontal {config.get('align_h', first)}"


def description(rows, config, widths, heights):
    yield from (" ".join(["row", *map(numbered, row)]) for row in rows)
    yield " ".join(["widths", *map(str, widths)])
    yield " ".join(["heights", *map(str, heights)])
    for name, calls in config.calls.items():
        word, written = WRITTEN[name]
        for entity, value in calls:
            yield " ".join([word, *(str(it).lower() for it in entity), written(value)])
    yield f"margin {sides_words(config.margin)}"
    yield f"margin_color {colors_words(config.margin_color)}"
    yield " ".join(["borders", *(sign(config.borders[it]) if config.borders.get(it) else "none" for it in GLYPHS)])
    yield " ".join(["borders_color", *(color_word(config.borders_color.get(it)) for it in GLYPHS)])
    for (row, column), span in config.column_spans.items():
        yield f"column_span {row} {column} {span}"
    for (row, column), span in config.row_spans.items():
        yield f"row_span {row} {column} {span}"
    yield from compact_description(config)


def wanted(model, grid, table):
    rows, config, widths, heights = table
    try:
        if grid == "compact":
            return "ok", f".{model.compact(rows, compact_config(model, config), widths)}"
        return "ok", f".{getattr(model, grid)(rows, config, widths, heights)}"
    except model.Fault as fault:
        where = f" {fault.fields['row']} {fault.fields['column']}" if fault.name == "Room" else ""
        return fault.name.lower() + where, "."


def unescaped(line):
    out, signs = [], iter(line)
    for it in signs:
        out.append(it if it != "\\" else {"n": "\n", "\\": "\\"}[next(signs)])
    return "".join(out)


def outcomes(lines):
    """What these lines say of a table: by the name of each grid its outcome and the text after it."""
    found = {}
    for first, text in zip(lines[0::2], lines[1::2]):
        name, _, outcome = first.partition(" ")
        found[name] = (outcome, unescaped(text))
    return found


def loaded(folder):
    grid, settings = modules(folder, "grid", "settings")
    for name in ("Config", "Fault", "Indent", "Sides"):
        setattr(grid, name, getattr(settings, name))
    return grid


def main():
    given = arguments(__doc__, 10_000).parse_args()
    model, count = loaded(given.model), Count(given)
    tables = [random_table(model, random.Random(f"{given.seed} {it}")) for it in range(given.cases)]
    described = ["\n".join(description(*it)) for it in tables]
    texts = 0
    for number, (table, lines) in enumerate(zip(tables, answers("grids", LIBRARIES, given.program, described, [2 * len(GRIDS)] * given.cases))):
        found = outcomes(lines)
        for name, grid in GRIDS.items():
            want = wanted(model, grid, table)
            texts += want[0] == "ok" and len(want[1]) > 1
            if found.get(name) != want:
                count.differs(number, [*description(*table), f"wanted {want!r}", f"found  {found.get(name)!r}"], name)
    count.close(f"{texts} texts")


if __name__ == "__main__":
    main()

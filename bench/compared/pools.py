#!/usr/bin/env python3
"""Compares tables of nested boxes with a plain model of their definitions, on random nested values.

  bench/compared/pools.py MODEL [--cases 10000] [--seed 1] [--show 3] [--program FILE]

MODEL is a folder with Python modules that were written apart from these crates: `pool`, whose `draw` gives the lines
of a value and the places where lines cross, and `to_string` its text, and `settings`. It is no part of the
repository. The tables are made by a small program (pools.source), which `rt try` builds on a copy of the crates,
with no proof, or which is given by --program. Glyphs at crossings may be others than the model's, if they are set:
that is known, and counted apart. Borders have no colours here: which glyphs are coloured as one is settled otherwise
than in the model. The order of two values is that of what is written of them here, in Python. The last line says how
many values differ.
"""
import os
import random
import sys

sys.dont_write_bytecode = True
sys.path.insert(0, os.path.dirname(os.path.abspath(__file__)))
from common import Count, answers, arguments, escaped, modules, numbered

LIBRARIES = "grid_config tabled_pool tabled_size"
MAX = 2 ** 64 - 1
PIECES = "a|b|xyz|word| long|漢|é|😳|\u0301|\n|\n| |\x1b[31m|\x1b[39m|\x1b[1m|\x1b[0m".split("|")
# a wide fill of a padding would make lines wider than the frame that the model takes for the width of a margin
FILLS, MARGIN_FILLS = " .#^", " .#^漢"
COLORS = (None, ("\x1b[31m", "\x1b[39m"), ("\x1b[1;44m", "\x1b[49;22m"))
GLYPHS = "top bottom left right top_left top_right bottom_left bottom_right top_intersection bottom_intersection left_intersection right_intersection horizontal vertical intersection".split()
TAKERS = ("First", "Last", "List")


def random_text(seeded):
    return "".join(seeded.choice(PIECES) for _ in range(seeded.choice((0, 1, 1, 2, 2, 3, 5))))


def random_value(seeded, depth):
    if depth == 0 or seeded.random() < 0.3:
        return "Cell", random_text(seeded)
    return seeded.choice(("Row", "Column")), [random_value(seeded, depth - 1) for _ in range(seeded.choice((0, 1, 1, 2, 2, 3, 3)))]


def near(seeded, value):
    """The same value, or one that is the same but for a member."""
    kind, inner = value
    if kind == "Cell" or not inner or seeded.random() < 0.2:
        return value if seeded.random() < 0.4 else random_value(seeded, 1)
    at = seeded.randrange(len(inner))
    return kind, inner[:at] + [near(seeded, inner[at])] + inner[at + 1:] + inner[:1] * (seeded.random() < 0.1)


def place_of(value):
    """What orders values: a row before a column before a text, members in turn, bytes in turn."""
    kind, inner = value
    return (2, inner.encode()) if kind == "Cell" else (("Row", "Column").index(kind), [place_of(it) for it in inner])


def value_commands(value):
    """A value is named after its members."""
    kind, inner = value
    if kind == "Cell":
        return [f"cell {numbered(inner)}"]
    return [line for it in inner for line in value_commands(it)] + [f"{kind.lower()} {len(inner)}"]


def random_borders(model, seeded):
    style = seeded.choice((*model.STYLES, "some", "some", "some"))
    if style != "some":
        return dict(model.STYLES[style])
    often = seeded.choice((0.2, 0.7, 0.95))
    return {name: "ABCDEFGHIJKLMNO"[at] for at, name in enumerate(GLYPHS) if seeded.random() < often}


def random_sides(model, seeded, fills):
    return model.Sides(*(model.Indent(seeded.choice((0, 0, 1, 1, 2, 3)), seeded.choice(fills)) for _ in range(4)))


def past_range(model, sides, seeded):
    """The same, but that no usize is their sum in one direction."""
    half = model.Indent(2 ** 63, ".")
    return sides._replace(left=half, right=half) if seeded.random() < 0.5 else sides._replace(top=half, bottom=half)


def random_colors(model, seeded):
    return model.Sides(*(seeded.choice(COLORS) for _ in range(4)))


def sides_words(sides):
    return " ".join(f"{it.size} {ord(it.fill)}" for it in sides)


def colors_words(colors):
    return " ".join(str(COLORS.index(it)) for it in colors)


def random_settings(model, seeded):
    """Commands, and the model's settings."""
    borders, padding, margin = random_borders(model, seeded), random_sides(model, seeded, FILLS), random_sides(model, seeded, MARGIN_FILLS)
    if seeded.random() < 0.02:
        padding = past_range(model, padding, seeded)
    if seeded.random() < 0.02:
        margin = past_range(model, margin, seeded)
    colors = (random_colors(model, seeded), random_colors(model, seeded)) if seeded.random() < 0.4 else (model.NO_COLOURS,) * 2
    horizontal, vertical = seeded.choice(("Left", "Center", "Right")), seeded.choice(("Top", "Center", "Bottom"))
    by_line, trims = seeded.random() < 0.4, seeded.random() < 0.3
    config = model.Config(borders=borders, padding=padding, margin=margin, padding_color=colors[0], margin_color=colors[1],
                          align_h=horizontal, align_v=vertical, line_alignment=by_line)
    glyphs = " ".join(str(ord(borders[it])) if it in borders else "-" for it in GLYPHS)
    return [f"borders {glyphs}", f"padding {sides_words(padding)}", f"margin {sides_words(margin)}", f"padding_color {colors_words(colors[0])}",
            f"margin_color {colors_words(colors[1])}", f"align {horizontal} {vertical} {int(by_line)} {int(trims)}"], config


def told(model, value, config, takers):
    """What a value is printed as, and where its lines cross."""
    try:
        lines, crossings = model.draw(value, config, *takers)
        margin = config.margin
        width = max((model.width(it) for it in lines), default=0)
        if "\n".join(lines) and max(margin.left.size + width + margin.right.size, margin.top.size + len(lines) + margin.bottom.size) > MAX:
            return "text range", set()
        return f"text ok .{escaped(model.to_string(value, config, *takers))}", crossings
    except model.Fault as fault:
        return "text " + fault.name.lower(), set()


def random_case(model, seeded):
    """The commands of a value, the lines that they must print, and what is needed where a glyph is another."""
    value = random_value(seeded, seeded.choice((0, 1, 2, 3, 3, 4)))
    other = near(seeded, value)
    takers = seeded.choice(TAKERS), seeded.choice(TAKERS)
    commands, config = random_settings(model, seeded)
    commands = ["begin", *commands, f"takers {takers[0]} {takers[1]}", *value_commands(other), *value_commands(value), "order", "print"]
    first, second = place_of(other), place_of(value)
    order = "less" if first < second else "greater" if first > second else "equal"
    text, crossings = told(model, value, config, takers)
    return commands, [f"order {order} {str(first == second).lower()} true", text, text, "same"], (config, crossings)


def differs_at_crossings(model, found, wanted, config, crossings):
    """Whether two texts are the same but for glyphs at crossings, each of which is one that is set, or a space."""
    lines, others = found.removeprefix("text ok .").split("\\n"), wanted.removeprefix("text ok .").split("\\n")
    if len(lines) != len(others):
        return False
    margin, glyphs = config.margin, {*config.borders.values(), " "}
    skipped = len(model.coloured(config.margin_color.left, margin.left.fill * margin.left.size))
    for y, (line, other) in enumerate(zip(lines, others)):
        if len(line) != len(other):
            return False
        for x, (one, two) in enumerate(zip(line, other)):
            if one != two and not (x >= skipped and (y - margin.top.size, model.width(line[skipped:x])) in crossings and one in glyphs):
                return False
    return True


def loaded(folder):
    settings, pool, measure, grid = modules(folder, "settings", "pool", "measure", "grid")
    settings.draw, settings.to_string, settings.width, settings.coloured = pool.draw, pool.to_string, measure.line_width, grid.coloured
    return settings


def is_known(model, found, wanted, where):
    """Whether what was found is wanted but for glyphs at crossings."""
    return found[::3] == wanted[::3] and found[1:2] == found[2:3] and differs_at_crossings(model, found[1], wanted[1], *where)


def main():
    given = arguments(__doc__, 10_000).parse_args()
    model, count = loaded(given.model), Count(given)
    crossing = texts = refused = equal = 0
    cases = [random_case(model, random.Random(f"{given.seed} {it}")) for it in range(given.cases)]
    described = ["\n".join(commands) for commands, _, _ in cases]
    sizes = [len(wanted) for _, wanted, _ in cases]
    for number, ((commands, wanted, where), found) in enumerate(zip(cases, answers("pools", LIBRARIES, given.program, described, sizes, "\n"))):
        texts += wanted[1].startswith("text ok .") and wanted[1] != "text ok ."
        refused, equal = refused + (wanted[1] == "text range"), equal + wanted[0].startswith("order equal")
        if found == wanted:
            continue
        lines = [*commands, "wanted", *wanted, "found", *found]
        if is_known(model, found, wanted, where):
            crossing += 1
            count.show(number, "at crossings alone, as is known", lines)
        else:
            count.differs(number, lines)
    count.close(f"{texts} texts, {refused} out of range, {equal} equal to another", f"{crossing} more at crossings alone, as is known" if crossing else "")


if __name__ == "__main__":
    main()

#!/usr/bin/env python3
"""Compares tables of coloured texts with those of the same texts without their sequences, after lists of settings.

  bench/compared/roads.py [--cases 20000] [--seed 1] [--show 3] [--program FILE]

A case is rows of coloured texts and a list of up to four settings that put in no sequence, as lists makes them; the
first setting is each variant of `Setting` in its turn. The program of lists.source runs the list over these rows, and
over the same rows stripped. Which setting is refused and why, the sizes that are kept, the totals and what an amount
measures are to be the same for both; the texts of the cells and the printed text of the one, stripped by the two
patterns below, are to be those of the other, whose text is stripped too where a setting colours cells. So no model is
needed. `rt try` builds the program, with no proof, or it is given by --program. The last line says how many cases
differ, and in what.
"""
import collections
import itertools
import os
import random
import re
import sys

sys.dont_write_bytecode = True
sys.path.insert(0, os.path.dirname(os.path.abspath(__file__)))
from common import Count, answers, arguments
import grids
import lists
from programs import ROOT

SETTINGS = f"{ROOT}/crates/tabled_list/src/setting.rt"
# a control sequence and a string of ECMA-48: all that these rows hold, and all that a table may put in
SEQUENCES = re.compile("\x1b\\[[0-?]*[ -/]*[@-~]|\x1b\\][^\x07\x1b]*(?:\x07|\x1b\\\\)")
# a size from which on a text isn't printed
GREAT = 1 << 40
# such a piece, or several, in a text of plain ones
SIGNS = [it for it in lists.COLORED if it not in lists.PLAIN]
SUFFIXES = [it for it in lists.SUFFIXES if "\x1b" not in it]


def variants():
    """The names of all settings, as they are declared."""
    with open(SETTINGS, encoding="utf-8") as it:
        body = it.read().split("pub enum Setting {", 1)[1].split("\n}\n", 1)[0]
    return re.findall(r"^    (\w+)[ (]", body, re.MULTILINE)


class Makers:
    """What lists makes settings of: one name of a setting, and sides."""
    Indent = collections.namedtuple("Indent", "size fill", defaults=(0, " "))
    Sides = collections.namedtuple("Sides", "left right top bottom")

    def __init__(self, names):
        self.STEPS = names


def stripped(text):
    return SEQUENCES.sub("", text)


def random_text(seeded):
    pieces = [seeded.choice(lists.PLAIN) for _ in range(seeded.choice((0, 1, 1, 2, 2, 3, 5, 8)))]
    for _ in range(seeded.choice((0, 1, 1, 2, 3))):
        pieces.insert(seeded.randint(0, len(pieces)), seeded.choice(SIGNS))
    return "".join(pieces)


def random_setting(names, seeded, rows, columns):
    setting = lists.random_setting(Makers(names), seeded, rows, columns)
    if "suffix" in setting:
        setting["suffix"] = seeded.choice(SUFFIXES)
    return setting


def random_case(names, number, seeded):
    """Coloured rows, a list that begins with the setting whose turn it is, and an amount."""
    rows, columns = seeded.choice((1, 1, 2, 2, 3, 3)), seeded.choice((1, 1, 2, 3, 4))
    texts = [[random_text(seeded) for _ in range(columns)] for _ in range(rows)]
    turn = [names[number % len(names)]]
    settings = [random_setting(turn, seeded, rows, columns)]
    settings += [random_setting(names, seeded, rows, columns) for _ in range(seeded.choice((0, 1, 2, 3, 3)))]
    seeded.shuffle(settings)
    return texts, settings, lists.random_amount(seeded, 9)


def is_small(settings):
    """Whether no setting requests a size that a text could not have."""
    numbers = [size for it in settings for field in ("width", "height") for size in it.get(field, ())[1:] if it[field][0] == "Exact"]
    return all(size < GREAT for it in settings for size in [*it.get("list", ()), *numbers])


def described(case):
    """The case over its rows, and over the same rows stripped."""
    texts, settings, amount = case
    bare = [[stripped(it) for it in row] for row in texts]
    both = (texts, settings, amount), (bare, settings, amount)
    return ["\n".join(lists.description(it, is_small(settings))) for it in both]


def is_colored(case):
    return any(it["name"] == "Color" for it in case[1])


def compare(count, number, case, colored, bare):
    """Counts in what the case differs from the one over stripped rows."""
    for name, one, other in itertools.zip_longest(lists.COMPARED, colored, bare, fillvalue=""):
        found = stripped(one) if name in ("texts", "pictures") else one
        wanted = stripped(other) if name == "pictures" and is_colored(case) else other
        if found != wanted or not one:
            count.differs(number, [*lists.description(case, True), f"coloured {one!r}", f"stripped {other!r}"], name)


def is_text(line):
    return line.startswith("ok ") and len(line) > 3


def main():
    given = arguments(__doc__, 20_000, has_model=False).parse_args()
    names, count = variants(), Count(given)
    cases = [random_case(names, it, random.Random(f"{given.seed} {it}")) for it in range(given.cases)]
    told = [it for case in cases for it in described(case)]
    said = list(answers("lists", lists.LIBRARIES, given.program, told, [len(lists.COMPARED)] * len(told)))
    colored, bare = said[0::2], said[1::2]
    for number, case in enumerate(cases):
        compare(count, number, case, colored[number], bare[number])
    refused, texts = sum(it[:1] != ["done"] for it in bare), sum(is_text(it[-1]) for it in bare if it)
    with_sequences = sum(is_text(it[-1]) and "\x1b" in it[-1] for it in colored if it)
    count.close(f"{refused} lists refused, {texts} texts, {with_sequences} of them coloured, {lists.rarest(cases, names)}")


if __name__ == "__main__":
    main()

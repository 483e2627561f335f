#!/usr/bin/env python3
"""Compares tables in random narrow styles, with margins, paddings and alignments, with a plain model.

  bench/compared/styles.py MODEL [--cases 2000] [--seed 1] [--show 3] [--program FILE]

MODEL is a folder with Python modules that were written apart from these crates: `settings`, with a class
`Config` of settings, `program`, with `run(bytes, Options)`, which returns bytes or raises a `RunFault`, and
`gen`, with `data(random, escapes)`, which makes inputs. It is no part of the repository. The tables are
printed by a small program (styles.source), which is built on a copy of the crates, and proved, or given by
--program. The last line says how many cases differ.
"""
import os
import random
import subprocess
import sys
import tempfile

sys.dont_write_bytecode = True
sys.path.insert(0, os.path.dirname(os.path.abspath(__file__)))
from common import Count, arguments, built, modules

LIBRARIES = "columns_run grid_config tabled_size_priority"
GLYPHS = """top bottom left right top_left top_right bottom_left bottom_right top_intersection bottom_intersection
    left_intersection right_intersection horizontal vertical intersection""".split()
PRIORITIES = "None MinLeft MinRight MaxLeft MaxRight Left Right".split()
ALIGNMENTS = "Left Center Right".split()
FILLS = " .-<>é"


def random_sides(model, seeded):
    def indent():
        return model.Indent(seeded.choice((0, 0, 1, 1, 2, seeded.randint(0, 5))), seeded.choice(FILLS))
    return model.Sides(indent(), indent(), indent(), indent())


def random_borders(seeded):
    share = seeded.choice((0, 1, 1, 0.3, 0.8))
    signs = seeded.choice(("+-|", "┌─│╬é "))
    return {name: seeded.choice(signs) for name in GLYPHS if seeded.random() < share}


def random_case(model, program, gen, seeded):
    config = model.Config()
    config.borders = random_borders(seeded)
    if seeded.random() < 0.7:
        config.margin = random_sides(model, seeded)
    config.set("padding", ("Global",), random_sides(model, seeded))
    config.set("align_h", ("Global",), seeded.choice(ALIGNMENTS))
    width = seeded.choice((None, None, seeded.randint(0, 60)))
    options = program.Options(width, seeded.random() < 0.4, seeded.random() < 0.4, seeded.choice(PRIORITIES), config)
    return gen.data(seeded, seeded.random() < 0.7), options


def described(options):
    style = options.style
    yield from (options.width or 0, int(options.width is not None), int(options.truncate), int(options.keep_words))
    yield PRIORITIES.index(options.priority)
    yield from (ord(style.borders[name]) if style.borders.get(name) else 0 for name in GLYPHS)
    for sides in (style.margin, style.get("padding", (0, 0))):
        for indent in (sides.left, sides.right, sides.top, sides.bottom):
            yield from (indent.size, ord(indent.fill))
    yield ALIGNMENTS.index(style.get("align_h", (0, 0)))


def wanted(program, given, options):
    try:
        return 0, program.run(given, options), b""
    except program.RunFault as fault:
        return 1, b"", fault.line().encode() + b"\n"


def found(driver, given, options):
    ran = subprocess.run([driver, *map(str, described(options))], input=given, capture_output=True, timeout=60)
    return ran.returncode, ran.stdout, ran.stderr


def main():
    given = arguments(__doc__, 2000).parse_args()
    gen, program, settings = modules(given.model, "gen", "program", "settings")
    count, texts = Count(given), 0
    with tempfile.TemporaryDirectory(prefix="styles-") as folder:
        driver = built("styles", LIBRARIES, given.program, folder)
        for number in range(given.cases):
            data, options = random_case(settings, program, gen, random.Random(f"{given.seed} {number}"))
            want, got = wanted(program, data, options), found(driver, data, options)
            texts += want[0] == 0 and len(want[1]) > 1
            if want != got:
                count.differs(number, [f"{options!r} {list(described(options))}", f"of     {data!r}", f"wanted {want!r}", f"found  {got!r}"])
    count.close(f"{texts} texts")


if __name__ == "__main__":
    main()

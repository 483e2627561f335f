"""What the comparisons have in common: their arguments, how their programs are run, and how they count."""
import argparse
import collections
import os
import sys

HERE = os.path.dirname(os.path.abspath(__file__))
sys.path.insert(0, os.path.dirname(HERE))
from programs import printed, proved, tried

__all__ = ["Count", "answers", "arguments", "built", "escaped", "modules", "numbered"]
# So many cases are one input of a program, whose output under `rt try` is limited.
TOGETHER = 250


def arguments(what, cases, has_model=True):
    """A reader of the command line of a comparison that makes so many cases where no number is given."""
    words = argparse.ArgumentParser(description=what, formatter_class=argparse.RawDescriptionHelpFormatter)
    if has_model:
        words.add_argument("model", metavar="MODEL")
    words.add_argument("--cases", type=int, default=cases, metavar="N")
    words.add_argument("--seed", default="1")
    words.add_argument("--show", type=int, default=3, metavar="K", help="how many cases that differ are shown")
    words.add_argument("--program", metavar="FILE", help="the program, built before")
    return words


def modules(folder, *names):
    """Modules of the model."""
    path = os.path.abspath(folder)
    if path not in sys.path:
        sys.path.insert(0, path)
    return [__import__(name) for name in names]


def built(name, libraries, given, folder):
    """The program that was given, or one that is built of NAME.source, and proved."""
    return os.path.abspath(given) if given else proved(f"{HERE}/{name}.source", libraries, folder)


def answers(name, libraries, given, described, sizes, between="\n\n"):
    """For each of these descriptions of cases the lines that the program of NAME.source prints of it, as many as `sizes`
    says: by the program that was given, or by `rt try`."""
    parts = [slice(first, first + TOGETHER) for first in range(0, len(described), TOGETHER)]
    inputs = [between.join(described[part]) for part in parts]
    said = printed(given, inputs) if given else tried(f"{HERE}/{name}.source", libraries, inputs)
    for part, lines in zip(parts, said, strict=True):
        at = 0
        for size in sizes[part]:
            yield lines[at:at + size]
            at += size


def numbered(text):
    """A text as one argument: the numbers of its characters."""
    return ",".join(str(ord(it)) for it in text) or "-"


def escaped(text):
    """A text in one line, as the programs print it."""
    return text.replace("\\", "\\\\").replace("\n", "\\n")


class Count:
    """How many cases differ, and in what; the first of them are shown."""

    def __init__(self, given):
        self.seed, self.cases, self.left = given.seed, given.cases, given.show
        self.differing, self.parts = set(), collections.Counter()

    def show(self, number, what, lines):
        if self.left > 0:
            self.left -= 1
            print(f"case {self.seed} {number}{what and f', {what}'}:", *lines, sep="\n  ")

    def differs(self, number, lines, part=""):
        """Counts a case, or a part of it, as one that differs."""
        self.differing.add(number)
        self.parts.update([part] if part else [])
        self.show(number, part, lines)

    def close(self, told, known=""):
        """Prints the last line, and ends by status 1 where anything differs. What is known to differ comes after."""
        parts = ", ".join(f"{count} in {part}" for part, count in sorted(self.parts.items()))
        print(f"{self.cases} cases, {told}; {len(self.differing)} differ{parts and f' ({parts})'}{known and f'; {known}'}")
        sys.exit(bool(self.differing))

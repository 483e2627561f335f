#!/usr/bin/env python3
"""Writes what is public in the crates that others use, and in the header for C, into the files tests/api/NAME.txt.

`make api` calls it, and tests/test_api.py compares.

A line is an item: its path as a user writes it, its kind, and its text without contract. A type, trait or function
is in the lowest crate that has it, at its shortest path; each other path is of the kind `use`. An impl is in
the lowest crate that has all that it names, at its type, or else at its trait. No line names a helper crate or a
private module, so a file stays as it is when such crates are merged.
"""
import collections
import os
import re
import sys

sys.dont_write_bytecode = True
HERE = os.path.dirname(os.path.abspath(__file__))
sys.path[:0] = [HERE, os.path.dirname(HERE)]
from common import ROOT
from source import Item, items, paths, shown, tokens_of

# The crates that others use, the lowest first.
CRATES = [
    "ansi_scan", "ansi_str", "grid_config", "grid_records", "papergrid", "tabled_size", "tabled", "tabled_pool",
    "columns",
]
HEADER = "include/basinmug.h"

# Where an item is: the number of its crate, how long its path is, and the path.
Place = collections.namedtuple("Place", "crate length path")


def read(path):
    with open(os.path.join(ROOT, path), encoding="utf-8") as it:
        return it.read()


def declare(module, tokens, folder):
    """Gives a module, and those below it, what they declare. The files of those are in the folder."""
    module.items, module.uses, module.impls = [], [], []
    for it in items(tokens):
        it.module, it.root = module, module.root
        {"use": module.uses, "impl": module.impls}.get(it.kind, module.items).append(it)
        if it.kind == "mod":
            below = f"{folder}/{it.name}"
            declare(it, tokens_of(read(f"{below}.rt")) if it.tokens is None else it.tokens, below)


def roots_of(crates):
    """The root modules of these crates and of all below them in this repository, by name."""
    below = dict(re.findall(r"^(\w+)(?: [^:\n]*)?:(.*)$", read("crates.txt"), re.M))
    roots, left = {}, list(crates)
    while left:
        crate = left.pop()
        if crate in below and crate not in roots:
            folder = f"crates/{crate}/src"
            file = "lib.rt" if os.path.exists(os.path.join(ROOT, folder, "lib.rt")) else "main.rt"
            roots[crate] = root = Item("mod", crate)
            root.root = root
            declare(root, tokens_of(read(f"{folder}/{file}")), folder)
            left += below[crate].split()
    return roots


def modules_of(module):
    """This module and all below it."""
    yield module
    for it in module.items:
        if it.kind == "mod":
            yield from modules_of(it)


class Names:
    """What names mean."""

    def __init__(self, roots):
        self.roots = roots

    def lookup(self, module, name, seen):
        """What has this name in a module."""
        if (module, name) in seen:
            return []
        seen = {*seen, (module, name)}
        found = [it for it in module.items if it.name == name]
        for use in module.uses:
            if use.name == name:
                found += self.resolve(module, use.path, seen)
            elif use.name == "*":
                modules = self.resolve(module, use.path, seen)
                found += [it for within in modules for it in self.lookup(within, name, seen)]
        return found

    def resolve(self, module, path, seen=frozenset()):
        """What a path names in a module; nothing where that is no part of this repository."""
        if path[0] in ("crate", "self", "super"):
            found = [{"crate": module.root, "self": module}.get(path[0]) or module.module]
        else:
            found = self.lookup(module, path[0], seen) or [self.roots[it] for it in path[:1] if it in self.roots]
        for name in path[1:]:
            found = [it for within in found if within.kind == "mod" for it in self.lookup(within, name, seen)]
        return found

    def exported(self, module):
        """The public names of a module, and what each is: an item, or a path to what is no part of this repository."""
        yield from ((it.name, it) for it in module.items if it.is_public)
        for use in module.uses:
            found = self.resolve(module, use.path) if use.is_public else []
            if use.name == "*":
                for within in found:
                    yield from self.exported(within)
            elif found:
                yield from ((use.name, it) for it in found if it.is_public)
            elif use.is_public and self.resolve(module, use.path[:1]):
                raise ValueError(f"nothing is read for {'::'.join(use.path)}")
            elif use.is_public:
                yield use.name, "::".join(use.path)


class Surface:
    """The lines of each crate, each a path, a kind and a text."""

    def __init__(self, crates):
        roots = roots_of(crates)
        self.names = Names(roots)
        self.lines = [set() for _ in crates]
        # Where each item is, and where aliases of types that have no other public name do, with their arguments.
        self.places, self.aliases = collections.defaultdict(list), collections.defaultdict(list)
        for number, crate in enumerate(crates):
            self.walk(number, roots[crate], crate, [])
        for it in self.places:
            self.add(it)
        for root in roots.values():
            for module in modules_of(root):
                for it in module.impls:
                    self.add_impl(module, it)

    def walk(self, crate, module, path, above):
        """Notes where each item of a public module is."""
        for name, it in self.names.exported(module):
            at = f"{path}::{name}"
            if isinstance(it, str):
                self.lines[crate].add((at, "use", it))
            elif it.kind != "mod":
                self.places[it].append(Place(crate, at.count("::"), at))
            elif it not in above:
                self.lines[crate].add((at, "mod", ""))
                self.walk(crate, it, at, [*above, it])

    def add(self, item):
        """Adds an item with its members, and its other paths."""
        place = min(self.places[item])
        for other in self.places[item]:
            if other.path != place.path:
                self.lines[other.crate].add((other.path, "use", place.path))
        text = item.text.replace(f"{item.kind} {item.name}", f"{item.kind} {place.path.split('::')[-1]}", 1)
        self.lines[place.crate].add((place.path, item.kind, text))
        self.add_members(item, place)
        for it in self.names.resolve(item.module, paths(item.target)[0]) if item.kind == "type" else []:
            if it not in self.places:
                self.aliases[it].append((shown(item.target[1:]), place))
                self.add_members(it, place)

    def add_members(self, item, place):
        lines = self.lines[place.crate]
        lines |= {(place.path, "derive", it) for it in item.derives}
        for it in item.members:
            lines.add((f"{place.path}::{it.name}", it.kind, it.text + " { .. }" * (it.kind == "fn" and it.has_body)))

    def standing(self, module, path, impl):
        """Where an item is that an impl names, of each one that the path may be; nowhere where none is public."""
        own = {path[0] for path in paths(impl.parameters)}
        is_general = all(path[0] in own for path in paths(impl.type[1:]))
        for it in self.names.resolve(module, path):
            aliases = [place for given, place in self.aliases[it] if is_general or shown(impl.type[1:]) == given]
            yield [min(self.places[it])] if it in self.places else aliases

    def add_impl(self, module, impl):
        """Adds an impl, or what it has that is public, where its type and its trait are."""
        types = [list(self.standing(module, path, impl)) for path in paths(impl.type)]
        traits = [list(self.standing(module, path, impl)) for path in paths(impl.trait)]
        if not all(all(it) for it in types + traits[:1]):
            return
        found = [place for it in types + traits for place in it if place]
        highest = max((it[0].crate for it in found), default=0)
        for place in next((it for it in found if it[0].crate == highest), []):
            lines = self.lines[place.crate]
            if impl.trait:
                types = [it.text for it in impl.members if it.kind == "type"]
                lines.add((place.path, "impl", ", ".join([impl.text, *types])))
            else:
                of = f" in {impl.text}" if "<" in impl.text else ""
                lines |= {(f"{place.path}::{it.name}", it.kind, it.text + of) for it in impl.members if it.is_public}


def of_header(text):
    """The lines of a header for C: what it defines, its constants, its structs with their fields, its functions."""
    text = re.sub(r"/\*.*?\*/|#ifdef __cplusplus.*?#endif", " ", text, flags=re.S).replace("\\\n", " ")
    found = [(name, "define", it) for it, name in re.findall(r"^(#define (\w+) .*)", text, re.M)]
    text = re.sub(r"^#.*", "", text, flags=re.M)
    for kind, name, within in re.findall(r"(enum|struct)\s*(\w*)\s*\{(.*?)\}\s*;", text, re.S):
        if kind == "enum":
            found += [(at, "constant", it) for it, at in re.findall(r"((\w+)[^,]*)", within)]
        else:
            found.append((name, "struct", f"struct {name}"))
            found += [(f"{name}::{at}", "field", it) for it, at in re.findall(r"([^;]*?(\w+)(?:\[\d+\])?);", within)]
    text = re.sub(r"(enum|struct)\s*\w*\s*\{.*?\}\s*;", "", text, flags=re.S)
    found += [(name, "function", it) for it, name in re.findall(r"([^;]*?(\w+)\([^;]*);", text)]
    return {(name, kind, " ".join(text.split())) for name, kind, text in found}


def kept_in(name):
    """The file that keeps the surface of a crate, or of the header."""
    return os.path.join(HERE, f"{name}.txt")


def surfaces():
    """The names of the crates and of the header, and the lines of each."""
    found = [*zip(CRATES, Surface(CRATES).lines), (os.path.basename(HEADER), of_header(read(HEADER)))]
    return [(name, ["\t".join(line).rstrip() for line in sorted(lines)]) for name, lines in found]


def write():
    for name, lines in surfaces():
        with open(kept_in(name), "w", encoding="utf-8") as it:
            it.writelines(f"{line}\n" for line in lines)


if __name__ == "__main__":
    write()

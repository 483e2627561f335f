"""Holds the manual pages and the completions of three shells against the source of the command lines.

For each program all name the same options, the same values for those that take one of several, and the same
version. Of the pages the links lead somewhere, what the first page shows is there, and each command names what is
there. Nothing is built for it.
"""
import collections
import functools
import glob
import os
import re
import runpy
import shlex
import shutil
import tempfile
import unittest

import common
from common import ROOT, ended

# The programs, and where the options of each are.
COMMANDS = {
    "columns": "crates/command_line/src/columns/command.rt",
    "basinmug": "crates/command_line/src/basinmug/command.rt",
}
# The options that the parser itself adds.
ADDED = {"help", "version"}


def read(path):
    return common.read(path).decode()


def command(program):
    """The options of the source, those that take a value, and the names that some of them take."""
    text = read(COMMANDS[program])
    options, valued, values = set(), set(), {}
    for body in re.findall(r"^    (?:Arg::new|flag|text|one_of)\(alloc, .*?\n}", text, re.S | re.M):
        long = re.search(r'\.long\("([^"]*)"\)|^    (?:flag|text|one_of)\(alloc, "([^"]*)"', body)
        if not long:
            continue  # an argument that belongs to no option
        name = long[1] or long[2]
        options.add(name)
        if ".value_name(" in body or body.startswith(("    text(", "    one_of(")):
            valued.add(name)
        listed = re.search(r'^    one_of\(alloc, "[^"]*", "[^"]*", (\w+)\.as_slice\(\)\)', body)
        if listed:
            items = re.search(rf"static {listed[1]}: \[&str; \d+\] = \[([^\]]*)\];", text)[1]
            values[name] = re.findall(r'"([^"]*)"', items)
    return options | ADDED, valued, values, re.search(r'VERSION: &str = "([^"]*)"', text)[1]


def manual(program):
    """What the manual page names: its options, its options with a value, names of values, the version."""
    text = read(f"docs/{program}.1")
    page = text.replace("\\-", "-")
    described = page[page.index(".SH OPTIONS"): page.index(".SH EXIT STATUS")]
    items = re.findall(r"^\.TP\n(\..*)$", described, re.M)
    options = {name for item in items for name in re.findall(r"--([a-z-]+)", item)}
    valued = {re.search(r"--([a-z-]+)", item)[1] for item in items if item.startswith(".BI ")}
    values = {}
    for block in described.split(".TP\n")[1:]:
        name = re.search(r"--([a-z-]+)", block)[1]
        bold = re.findall(r"^(?:\.B ([a-z]+)$|\.BR ([a-z]+) [:;])", block, re.M)
        named = ["".join(pair) for pair in bold]
        if named:
            values[name] = named
    shown = set(re.findall(r"--([a-z-]+)", page[page.index(".SH SYNOPSIS"): page.index(".SH DESCRIPTION")]))
    version = re.search(rf'^\.TH {program.upper()} 1 "" "{program} ([^"]*)"', text)[1]
    return options if shown == options else shown ^ options, valued, values, version


def completion(path, options, valued, values):
    """What a file of completions names, by the forms of an option, of one with a value, and of one with its values."""
    text = read(path)
    named = {name: words.split() for name, words in re.findall(values, text, re.M)}
    return set(re.findall(options, text, re.M)), set(re.findall(valued, text, re.M)), named, None


def bash(program):
    arm = r"^ *--([a-z-]+)\) options="
    return completion(f"completions/{program}.bash", r"--([a-z-]+)(?=[' ])", arm, rf"{arm}'([^']+)' ;;$")


def zsh(program):
    return completion(f"completions/_{program}", r"--([a-z-]+)(?=[=\[}])", r"--([a-z-]+)=", r"--([a-z-]+)=[^\n]*:\(([^)]*)\)'")


def fish(program):
    option = r" -l ([a-z-]+)"
    return completion(f"completions/{program}.fish", option, f"{option} -x", f"{option} -x -a '([^']*)'")


# What bash offers: the arguments of a line, of which the last is being written, and what may be there.
OFFERS = [
    (["columns", "--s"], ["--style", "--streamed"]),
    (["columns", "--style", "m"], ["modern"]),
    (["columns", "--style", "=", "e"], ["extended", "empty"]),
    (["columns", "--priority", "="], ["none", "min", "max", "left", "right"]),
    (["columns", "--width", ""], []),
    (["columns", "--color", ""], []),
    (["columns", "--c"], ["--color"]),
    (["columns", "--truncate", "--k"], ["--keep-words"]),
    (["columns", "--width", "60", "<", "examples/nightly."], ["examples/nightly.table", "examples/nightly.tsv"]),
    (["columns", "--width", "60", "<", "no such"], []),
    (["basinmug", "--s"], ["--style"]),
    (["basinmug", "--style", "m"], ["modern", "markdown"]),
    (["basinmug", "--style", "=", "e"], ["extended", "empty"]),
    (["basinmug", "--rules", ""], ["header", "all", "none"]),
    (["basinmug", "--priority", "m"], ["max", "min"]),
    (["basinmug", "--width", ""], []),
    (["basinmug", "--align", ""], []),
    (["basinmug", "--truncate", "--m"], ["--max-rows"]),
    (["basinmug", "docs/basinmug."], ["docs/basinmug.1"]),
    (["basinmug", "--no-header", "docs/columns."], ["docs/columns.1"]),
]


NAMES = "crates/program_options/src/color_list/names.rt"
# Where the names of colours are listed for people, each in its own way.
LISTED = [
    *((f"the help of {name}", path, r"^Colours:\n(.*?)\n\n") for name, path in COMMANDS.items()),
    *((f"the manual page of {name}", f"docs/{name}.1", r"^The names are\n(.*?)^A column") for name in COMMANDS),
    *((f"zsh, for {name},", f"completions/_{name}", r"--color=[^;]*; ([a-z ]*):") for name in COMMANDS),
]


def colors():
    """The names of colours in the source."""
    return re.findall(r'^ +"([a-z]+)" => \(', read(NAMES), re.M)


def offered(words):
    """What bash offers for the last of the arguments."""
    script = 'source "$1"; shift; COMP_WORDS=("$@"); COMP_CWORD=$(($# - 1)); "_$1"; printf "%s\\n" "${COMPREPLY[@]}"'
    completion = os.path.join(ROOT, f"completions/{words[0]}.bash")
    wrote = ended(["bash", "-c", script, "bash", completion, *words], cwd=ROOT, check=True).stdout.decode().split()
    return sorted(wrote) if "<" in words else wrote


# The pages of the repository.
PAGES = [it for form in ("*.md", "*/*.md", "*/*/*.md") for it in sorted(glob.glob(form, root_dir=ROOT))]


def headings(page):
    """The anchors of a page's headings, as they are made of them on the web."""
    text = re.sub(r"^```.*?^```$", "", read(page), flags=re.S | re.M)
    bare = [re.sub(r"\[([^\]]*)\]\([^)]*\)", r"\1", it).strip().lower() for it in re.findall(r"^#+ (.*)$", text, re.M)]
    return {re.sub(r"[^\w\- ]", "", it).replace(" ", "-") for it in bare}


# The scripts that pages name, beside `make`, `rt` and the two programs.
SCRIPTS = r"attacks/run|bench/compare|bench/compared/\w+\.py|bench/costs/run|bench/costs/proof|tools/\w+|tests/run"
# A command of one of these: at the start of a line, after a bar, or in `$(..)`; its arguments end before the next sign of the shell.
CALL = re.compile(rf"(?:^|\| *|\$\()(make|rt|columns|basinmug|{SCRIPTS})(?=[ )]|$)((?: +(?:'[^']*'|[^'\s|<>);]+)+)*)")
# Crates that pages let a reader make.
OWN = {"mine"}

Call = collections.namedtuple("Call", "page line program words")


def lines_of_commands(page):
    """What may be a command in a page: the lines of its blocks, up to what follows two spaces, and what is between
    backquotes; of a manual page its examples."""
    if page.endswith(".1"):
        return common.manual_examples(os.path.basename(page)[:-2])
    text = re.sub(r"^ *```.*?^ *```$", "", read(page), flags=re.S | re.M)
    blocks = re.findall(r"^    (?:\$ )?(\S.*)$", text, re.M)
    spans = re.findall(r"`([^`\n]+)`", re.sub(r"^    .*$", "", text, flags=re.M))
    return [it.partition("  ")[0] for it in blocks] + spans


def calls_of(line, page=None):
    """The commands of a line. A name without arguments may be that of a crate."""
    found = [Call(page, line, it[1], tuple(shlex.split(it[2]))) for it in CALL.finditer(line)]
    return [it for it in found if it.words or "/" in it.program]


def calls():
    """Each command of each page, once for each page."""
    pages = [*PAGES, *(f"docs/{name}.1" for name in COMMANDS)]
    return list(dict.fromkeys(it for page in pages for line in lines_of_commands(page) for it in calls_of(line, page)))


def only_reports(call):
    """Whether a command only lists something, or prints a help, a version or a path."""
    if call.program == "rt":
        return call.words in (("doc",), ("version",))
    return "/" in call.program and not {"--help", "--list"}.isdisjoint(call.words)


@functools.cache
def help_of_rt():
    ran = ended(["rt", "help"], cwd=ROOT)
    return (ran.stdout + ran.stderr).decode()


@functools.cache
def are_fitting_mutants(which):
    """Whether there are mutants of a crate or of a name, and all fit the source, as the script that tries them lists them."""
    ran = ended([f"{ROOT}/attacks/run", "--list", which], cwd=ROOT)
    last = ran.stdout.decode().splitlines()[-1:]
    return ran.returncode == 0 and any(re.fullmatch(r"[1-9]\d* mutants?, 0 that do not fit, .*", it) for it in last)


def fault_of(program, words):
    """What is wrong with a command, as far as that is seen without running it: the arguments that it does not know."""
    if program == "make":
        bad = unknown_to_make(words)
    elif program == "rt":
        bad = unknown_to_rt(words)
    elif program in COMMANDS:
        bad = unknown_to_program(program, words)
    elif os.access(f"{ROOT}/{program}", os.X_OK):
        bad = unknown_to_script(program, words)
    else:
        return f"{program} can't be run"
    return f"{program} knows no {bad}" if bad else ""


def options_of(words):
    return [it.partition("=")[0] for it in words if it.startswith("-")]


def is_left_open(word):
    """Whether an argument is in place of the reader's own: it is in capitals, or a number."""
    return word == word.upper()


def unknown_to_rt(words):
    known = "|".join(re.findall(r"^(?: +|usage: )rt ([a-z|-]+)", help_of_rt(), re.M)).split("|")
    return [it for it in words[:1] if it not in known] + [it for it in options_of(words) if not re.search(rf"{it}\b", help_of_rt())]


def unknown_to_program(program, words):
    known, _, values, _ = command(program)
    bad = [it for it in options_of(words) if it[2:] not in known]
    pairs = [(name[2:], value) for name, value in zip(words, words[1:]) if name[2:] in values]
    return bad + [value for name, value in pairs if value not in values[name] and not is_left_open(value)]


def unknown_to_script(program, words):
    text = read(program) + (read("bench/compared/common.py") if program.startswith("bench/compared/") else "") + " --help "
    bad = [it for it in options_of(words) if not re.search(rf"{it}\b", text)]
    after = {word: before for before, word in zip(("", *words), words)}
    names = [it for it in words if not it.startswith("-") and (not after[it].startswith("-") or after[it] in ("--list", "--left"))]
    kinds = [it for name, value in zip(words, words[1:]) if name == "--kinds" for it in value.split(",")]
    return (bad + [it for it in names if not is_left_open(it) and not is_name_of(program, it)]
            + [it for it in kinds if not re.search(rf"^def {it}\(", read("bench/costs/generate"), re.M)])


def is_name_of(program, word):
    """Whether a script takes an argument that is no option: a comparison, a mutant or its crate, a crate."""
    if program.startswith("bench/compare"):
        return os.path.exists(f"{ROOT}/bench/compared/{word}.py")
    if program == "attacks/run":
        return are_fitting_mutants(word)
    return word in OWN or os.path.isdir(f"{ROOT}/crates/{word}")


def unknown_to_make(words):
    """Of `make` the targets, the variables, and the arguments that a variable passes on."""
    makefile = read("Makefile")
    bad = [it for it in words if re.fullmatch(r"[a-z][a-z-]*", it) and not re.search(rf"^{it}:", makefile, re.M)]
    for name, value in (it.split("=", 1) for it in words if re.match(r"[A-Z]+=", it)):
        handed = {"BENCH": "bench/costs/run", "ATTACK": "attacks/run", "ARGS": "basinmug" if "show" in words else "columns"}
        if f"$({name})" not in makefile or name == "INPUT" and not os.path.exists(f"{ROOT}/{value}"):
            bad.append(f"{name}={value}")
        elif name in handed and fault_of(handed[name], shlex.split(value)):
            bad.append(value)
    return bad


# What runs the commands of pages in the gate, by how they begin: those that only report are run here.
RUN = {
    "columns": "tests/test_program.py", "make -s run": "tests/test_program.py", "basinmug": "tests/test_basinmug.py", "make show": "tests/test_basinmug.py",
    "make install": "tests/test_dist.py", "rt ci": "tests/run", "attacks/run --gate": "tests/run", "tools/crates": "tests/run",
}
# What no test runs, and why.
NOT_RUN = {
    "make test": "it is the gate", "make long": "it runs the long tests", "make attack": "it tries all mutants, for a day", "tools/build": "it wants a crate",
}


@functools.cache
def long_commands():
    """The commands that tests/long/test_commands.py runs, as pages show them."""
    return runpy.run_path(f"{ROOT}/tests/long/test_commands.py")["COMMANDS"]


def what_runs(call):
    """The tests that run a command as its page shows it, or why none does; nothing where neither is known."""
    if only_reports(call):
        return "tests/test_words.py"
    if call.line in long_commands():
        return "tests/long/test_commands.py"
    words = " ".join((call.program, *call.words)) + " "
    return NOT_RUN.get(call.line) or next((by for begin, by in RUN.items() if words.startswith(f"{begin} ")), "")


class Commands(unittest.TestCase):
    """The commands of all pages: what they name is there, and a test runs each as it is on its page."""

    def test_each_names_what_is_there(self):
        for call in calls():
            with self.subTest(f"{call.page}: {call.line}"):
                self.assertEqual(fault_of(call.program, call.words), "")

    def test_each_is_run_by_a_test(self):
        for call in calls():
            with self.subTest(f"{call.page}: {call.line}"):
                self.assertNotEqual(what_runs(call), "", "no test runs it: tests/long/test_commands.py may")
        self.assertEqual([what_runs(it) for it in [*calls_of("make fmt"), *calls_of("tools/build columns")]], ["", ""])

    def test_what_is_run_is_on_a_page(self):
        lines = {it.line for it in calls()}
        for line in (*long_commands(), *NOT_RUN):
            with self.subTest(line):
                self.assertIn(line, lines)

    def test_pages_have_commands_of_all_programs(self):
        self.assertLessEqual({"make", "rt", "attacks/run", "bench/compare", "bench/costs/run", "tools/build", *COMMANDS}, {it.program for it in calls()})
        self.assertGreater(len(calls()), 80)

    def test_a_wrong_command_is_seen(self):
        for line in (
            "make tests", "make bench BENCH=--splits", "make bench BENCH='--kinds wid'", "make attack ATTACK=program_options/none", "make quick SPEED=1",
            "make show INPUT=examples/none.csv", "make show ARGS='--wide 60'", "rt checks", "rt check --onli NAME", "columns --with 3", "basinmug --style round",
            "tools/build --lists tabled", "tools/build tabeld", "bench/compare MODEL raods", "attacks/run --lists", "tools/none", "x | columns --with 3",
        ):
            with self.subTest(line):
                self.assertTrue(any(fault_of(it.program, it.words) for it in calls_of(line)))

    def test_those_that_only_report_are_run(self):
        """As they are on the page, where they are all of a line."""
        lines = {it.line for it in calls() if it.line.startswith(it.program) and only_reports(it)}
        self.assertGreaterEqual(len(lines), 5)
        for line in sorted(lines):
            with self.subTest(line):
                ran = ended(["sh", "-c", line], cwd=ROOT)
                self.assertEqual((ran.returncode, ran.stderr, ran.stdout != b""), (0, b"", True))

    def test_a_library_is_copied_as_the_page_says(self):
        """The block of commands, in a copy of the sources; beside it are then the library, the crates below it, and their lines."""
        text = read("docs/ARCHITECTURE.md").partition("To use a library")[2]
        block = re.sub("^    ", "", re.search(r"((?:^    .*\n)+)", text, re.M)[1], flags=re.M)
        with tempfile.TemporaryDirectory() as folder:
            left_out = shutil.ignore_patterns("out", "__pycache__")
            for name in ("crates", "tools"):
                shutil.copytree(f"{ROOT}/{name}", f"{folder}/copy/{name}", ignore=left_out)
            shutil.copy(f"{ROOT}/crates.txt", f"{folder}/copy/crates.txt")
            ran = ended(["sh", "-e", "-c", block], cwd=f"{folder}/copy")
            self.assertEqual((ran.returncode, ran.stdout, ran.stderr), (0, b"", b""))
            wanted = ended(["tools/build", "--list", "tabled"], cwd=ROOT).stdout.decode().split()
            self.assertGreater(len(wanted), 10)
            self.assertEqual(sorted(os.listdir(f"{folder}/mine/crates")), sorted(wanted))
            with open(f"{folder}/mine/crates.txt", encoding="utf-8") as it:
                self.assertEqual([line.partition(":")[0] for line in it], wanted)
            self.assertTrue(os.access(f"{folder}/mine/tools/build", os.X_OK))

    def test_the_archive_is_installed_as_its_own_page_says(self):
        """The commands are also on the page of the archive, whose name has the version of now. They are run by test_dist.py."""
        block = re.search(r"^((?:    .*\n)+)", read("README.md").partition("\n## Install\n")[2], re.M)[1]
        unpack, enter, *commands = (it.strip().partition("  ")[0] for it in block.splitlines())
        name = f"basinmug-{read('VERSION').strip()}-x86_64-linux"
        self.assertEqual([unpack, enter], [f"tar -xf {name}.tar.xz", f"cd {name}"])
        page = [it.partition("  ")[0] for it in read("tools/archive/README").splitlines()]
        self.assertLessEqual({*commands}, {*page})

    def test_the_mutant_on_the_page_is_one_of_its_crate(self):
        shown = re.sub("^    ", "", re.search(r"((?:^    .*\n)+)", read("attacks/README.md"), re.M)[1], flags=re.M)
        self.assertIn(shown, read("attacks/program_options.edits"))


class Trusted(unittest.TestCase):
    """What `tools/trusted` prints, and what the page says of it."""

    # Of a check it passes on lines that begin so.
    CHECKED = ("logic", "statements", "axioms", "hides", "assumed", "note", "logic=proved", "==", "not checked")

    def test_the_page_explains_each_line(self):
        script = runpy.run_path(f"{ROOT}/tools/trusted")
        rows = read("docs/GUARANTEES.md").partition("\n## Trusted\n")[2].partition("\n## ")[0]
        explained = {name.partition(" ")[0] if name.startswith("==") else re.sub(r"( [A-Z].*|:.*)$", "", name)
                     for row in re.findall(r"^\| .*", rows, re.M) for name in re.findall(r"`([^`]+)`", row)}
        printed = [line.partition(":")[0] for line in script["around"](common.kit())]
        self.assertGreaterEqual(len(printed), 10)
        for name in dict.fromkeys([*printed, *self.CHECKED]):
            with self.subTest(name):
                self.assertIn(name, explained)


class Pages(unittest.TestCase):
    """What pages say that can be looked up."""

    def test_links_lead_to_files_and_headings(self):
        for page in PAGES:
            for link in re.findall(r"\]\((?!\w+:)([^)\s]+)\)", read(page)):
                with self.subTest(f"{page}: {link}"):
                    path, _, anchor = link.partition("#")
                    path = os.path.normpath(os.path.join(os.path.dirname(page), path)) if path else page
                    self.assertTrue(os.path.exists(f"{ROOT}/{path}"), f"{path} is not there")
                    if anchor:
                        self.assertIn(anchor, headings(path))

    def test_the_page_shows_rattle_of_the_examples(self):
        shown = read("README.md").partition("## In Rattle")[2]
        path, block = re.search(r"\]\((\S+\.rt)\)", shown)[1], re.search(r"^```rust\n(.*?)^```$", shown, re.M | re.S)[1]
        self.assertIn(block, read(path))

    def test_names_are_in_the_files_that_they_lead_to(self):
        for page in PAGES:
            for name, link in re.findall(r"\[`(\w+)`\]\(([^)\s]+\.(?:rt|antt|py))\)", read(page)):
                with self.subTest(f"{page}: {name}"):
                    self.assertRegex(read(os.path.normpath(os.path.join(os.path.dirname(page), link))), rf"\b{name}\b")

    def test_a_page_shows_lines_of_the_file_that_it_named_last(self):
        before, *parts = re.split(r"^ *```rattle\n", read("docs/PAPER.md"), flags=re.M)
        self.assertEqual(len(parts), 3)
        for part in parts:
            path = "docs/" + re.findall(r"\]\(([^)\s]+)\)", before)[-1]
            lines = {it.strip() for it in read(os.path.normpath(path)).splitlines()}
            shown, _, before = part.partition("```\n")
            for line in shown.strip().splitlines():
                with self.subTest(line.strip()):
                    self.assertIn(line.strip(), lines)


class Words(unittest.TestCase):
    """What is said of the command lines beside their source."""

    def test_pages_and_completions_list_what_the_source_has(self):
        parts = ["names the options", "knows which take a value", "names their values", "has the version"]
        for program in COMMANDS:
            wanted = command(program)
            for place, listed in [("the manual page", manual), ("bash", bash), ("zsh", zsh), ("fish", fish)]:
                for part, is_there, should in zip(parts, listed(program), wanted):
                    if is_there is not None:
                        with self.subTest(f"{program}: {place} {part}"):
                            self.assertEqual(is_there, should)

    def test_the_source_has_ten_names_of_colours(self):
        self.assertEqual(len(colors()), 10)

    def test_colours_are_listed_in_the_order_of_the_source(self):
        for place, path, form in LISTED:
            with self.subTest(f"{place} names the colours"):
                listed = re.search(form, read(path), re.S | re.M)[1]
                self.assertEqual([word for word in re.findall(r"[a-z]+", listed) if word in colors()], colors())

    def test_bash_offers_what_may_be_there(self):
        for words, should in OFFERS:
            with self.subTest(" ".join(words)):
                self.assertEqual(offered(words), should)

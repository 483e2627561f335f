"""Packs the package for Python as a wheel, installs it in a fresh environment without a network, and runs its tests there.

Nothing of this repository is on the path of that environment. Where pip or the module `venv` is missing, what needs them is
passed over.
"""
import base64
import hashlib
import json
import os
import random
import re
import shutil
import sys
import unittest
import zipfile

from common import ROOT, built, ended, environment, read
from test_clib import SHARED, Built, shown_in_readme

VERSION = read("VERSION").decode().strip()
NAME = f"basinmug-{VERSION}-py3-none-manylinux_2_34_x86_64.whl"
INFO = f"basinmug-{VERSION}.dist-info"
LIBRARY = "basinmug/libbasinmug.so.0"
FILES = {
    "basinmug/__init__.py": "bindings/python/basinmug/__init__.py",
    "basinmug/_library.py": "bindings/python/basinmug/_library.py",
    "basinmug/_options.py": "bindings/python/basinmug/_options.py",
    "basinmug/_rows.py": "bindings/python/basinmug/_rows.py",
    "basinmug/errors.py": "bindings/python/basinmug/errors.py",
    "basinmug/py.typed": "bindings/python/basinmug/py.typed",
    LIBRARY: "lib/libbasinmug.so.0",
    f"{INFO}/LICENSE": "LICENSE",
    f"{INFO}/NOTICE": "NOTICE",
}


def alone(**more):
    """The environment without what leads Python and the package to other files."""
    return {name: value for name, value in environment(**more).items() if name in more or name not in ("PYTHONPATH", "BASINMUG_LIBRARY", "NO_COLOR")}


# Tables of cases from standard input: of rows as lists and as mappings, and of their text.
PRINTS = """
import basinmug, json, sys
found = []
for rows, headers, text, asked in json.load(sys.stdin):
    keyed = [dict(zip(headers, row)) for row in rows] if headers and rows else None
    tables = [basinmug.table(rows, headers, **asked), basinmug.csv(text, delimiter=",", header=bool(headers), **asked)]
    found.append(tables + ([basinmug.table(keyed, **asked)] if keyed else []))
json.dump(found, sys.stdout)
"""
CELLS = ["", "a", "12", "-3.5", "1,5", "two words", "a text of many words", 'a "quote"', "two\nlines", "a\tb", "\x1b[31mred\x1b[0m", "\x1b]0;t\x07", "表", "e\u0301"]


def requests(seeded, count):
    """Rows, their headers or None, their text, and what is requested of their table."""
    for _ in range(count):
        columns = seeded.randint(1, 6)
        rows = [[seeded.choice(CELLS) for _ in range(columns)] for _ in range(seeded.randint(0, 5))]
        headers = seeded.choice([None, [f"c{at}" for at in range(columns)]])
        text = "".join(",".join('"' + cell.replace('"', '""') + '"' for cell in row) + "\n" for row in [*([headers] if headers else []), *rows])
        asked = {
            "width": seeded.randint(0, 40), "style": seeded.choice(["ascii", "modern", "extended", "empty", "rounded"]), "rules": seeded.choice(["header", "all", "none"]),
            "priority": seeded.choice(["none", "min", "max", "left", "right"]), "escapes": seeded.choice(["colors", "none"]), "truncate": True, "expanded": True,
            "all_columns": True, "max_rows": seeded.randint(0, 3), "tail": seeded.randint(0, 3), "color": "0=red", "align": "0=center",
        }
        if headers:
            asked |= {"columns": f"{columns - 1},c0", "color": f"c{columns - 1}=bold,0=red", "align": "c0=right"}
        yield rows, headers, text, {name: asked[name] for name in seeded.sample(sorted(asked), seeded.randint(0, 5)) if rows or headers}


def words_of(asked):
    """The arguments of the program that request the same."""
    for name, value in asked.items():
        yield f"--{name.replace('_', '-')}"
        if value is not True:
            yield str(value)


def packed(folder, umask):
    """Packs a wheel into a folder, and gives its path."""
    ended([f"{ROOT}/tools/wheel", folder], cwd="/", preexec_fn=lambda: os.umask(umask), check=True)
    return f"{folder}/{NAME}"


def install(wheel, folder):
    """Makes an environment and installs a wheel there without a network; gives its Python. Skips where that cannot be."""
    pip = ["-m", "pip", "--disable-pip-version-check", "--no-input"]
    python = f"{folder}/bin/python"
    has_pip = re.match(rb"pip (\d+)", ended([sys.executable, "-m", "pip", "--version"]).stdout)
    others = has_pip and int(has_pip[1]) >= 23  # it installs into another environment
    made = ended([sys.executable, "-m", "venv", *["--without-pip"] * bool(others), folder])
    if made.returncode:
        raise unittest.SkipTest(f"no venv: the wheel was not installed: {made.stdout.decode()}")
    words = [sys.executable, *pip, "--python", python] if others else [python, *pip]
    ran = ended([*words, "install", "--no-index", "--no-deps", "--no-compile", wheel], cwd="/", env=alone(), timeout=600)
    if ran.returncode:
        raise AssertionError(ran.stderr.decode())
    return python


class Packed(Built):
    """The file."""

    @classmethod
    def setUpClass(cls):
        super().setUpClass()
        cls.wheel = packed(cls.shared_folder("wheel-"), 0o022)

    def test_another_mask_of_modes_packs_the_same_bytes(self):
        with open(self.wheel, "rb") as one, open(packed(self.folder, 0o077), "rb") as other:
            self.assertSame(other.read(), one.read())

    def test_what_is_packed_and_how(self):
        with zipfile.ZipFile(self.wheel) as wheel:
            self.assertIsNone(wheel.testzip())
            self.assertEqual({*wheel.namelist()}, {*FILES, *(f"{INFO}/{it}" for it in ("METADATA", "RECORD", "WHEEL"))})
            for it in wheel.infolist():
                mode = 0o100755 if it.filename == LIBRARY else 0o100644
                self.assertEqual((it.filename, it.date_time, it.external_attr >> 16), (it.filename, (1980, 1, 1, 0, 0, 0), mode))
            for name, source in FILES.items():
                with self.subTest(name):
                    self.assertSame(wheel.read(name), read(source))

    def test_what_is_said_of_it(self):
        with zipfile.ZipFile(self.wheel) as wheel:
            self.assertIn("\nTag: py3-none-manylinux_2_34_x86_64\n", wheel.read(f"{INFO}/WHEEL").decode())
            head, _, text = wheel.read(f"{INFO}/METADATA").decode().partition("\n\n")
            self.assertLessEqual({"Name: basinmug", f"Version: {VERSION}", "Classifier: Typing :: Typed"}, {*head.splitlines()})
            self.assertSame(text, read("bindings/python/README.md").decode())

    def test_each_file_has_a_sum(self):
        with zipfile.ZipFile(self.wheel) as wheel:
            rows = [line.split(",") for line in wheel.read(f"{INFO}/RECORD").decode().splitlines()]
            self.assertEqual([name for name, _, _ in rows], wheel.namelist())
            self.assertEqual(rows.pop(), [f"{INFO}/RECORD", "", ""])
            for name, told, size in rows:
                data = wheel.read(name)
                digest = base64.urlsafe_b64encode(hashlib.sha256(data).digest()).decode().rstrip("=")
                self.assertEqual((name, told, size), (name, f"sha256={digest}", str(len(data))))

    @unittest.skipUnless(shutil.which("objdump"), "no objdump: what the library needs was not looked at")
    def test_the_library_needs_no_more_than_the_tag_says(self):
        said = self.assertWell("objdump", "-p", SHARED).decode()
        self.assertLessEqual({*re.findall(r"NEEDED +(\S+)", said)}, {"libc.so.6", "ld-linux-x86-64.so.2"})
        versions = [(*map(int, it.split(".")),) for it in re.findall(r" GLIBC_([\d.]+)", said)]
        self.assertLessEqual(max(versions), (2, 34))


class Installed(Built):
    """The package, as pip installs it in a fresh environment."""

    @classmethod
    def setUpClass(cls):
        super().setUpClass()
        folder = cls.shared_folder("a b ")
        cls.python = install(packed(folder, 0o022), f"{folder}/venv")

    def ran(self, *words, **more):
        """Its Python with these arguments, in an empty folder."""
        return ended([self.python, "-B", *words], cwd=self.folder, env=alone(**more))

    def assertRefusesToLoad(self, said, **more):
        """An import fails, and its last line says this."""
        ran = self.ran("-c", "import basinmug", **more)
        self.assertEqual((ran.returncode, ran.stderr.decode().splitlines()[-1]), (1, f"ImportError: {said}"))

    def test_its_own_tests(self):
        shutil.copy(f"{ROOT}/bindings/python/test_basinmug.py", self.folder)
        ran = self.ran("-m", "unittest", "test_basinmug")
        self.assertEqual(ran.returncode, 0, ran.stderr.decode())

    def test_it_is_this_package_and_this_library(self):
        ran = self.ran("-c", "import basinmug; print(basinmug.__version__, basinmug.__file__, basinmug._library._library._name)")
        version, package, library = ran.stdout.decode().replace(os.path.dirname(os.path.dirname(self.python)), "venv").split()
        self.assertEqual(version, VERSION)
        self.assertEqual((package.split("/")[0], library.split("/")[0]), ("venv", "venv"))
        self.assertEqual(os.path.dirname(package), os.path.dirname(library))

    def test_a_library_that_is_missing(self):
        ran = self.ran("-c", "import basinmug", BASINMUG_LIBRARY="/none/lib.so")
        self.assertEqual(ran.returncode, 1)
        self.assertRegex(ran.stderr.decode().splitlines()[-1], r"^ImportError: /none/lib\.so is not loaded \(.*\): BASINMUG_LIBRARY may name it$")

    @unittest.skipUnless(shutil.which("cc"), "no cc: a library of another version was not loaded")
    def test_a_library_of_another_version(self):
        other = f"{self.folder}/other.so"
        with open(f"{self.folder}/other.c", "w", encoding="utf-8") as it:
            it.write("unsigned basinmug_version(void) { return 99; }\n")
        self.assertWell("cc", "-shared", "-o", other, f"{self.folder}/other.c")
        self.assertRefusesToLoad(f"{other} has version number 99, and this package is {VERSION}", BASINMUG_LIBRARY=other)

    def test_the_example(self):
        self.assertReport(self.python, "-B", f"{ROOT}/examples/python/report.py", cwd=self.folder, env=alone())

    def test_the_lines_of_the_readme(self):
        os.mkdir(f"{self.folder}/examples")
        shutil.copy(f"{ROOT}/examples/notes.csv", f"{self.folder}/examples")
        self.assertReport(self.python, "-B", "-c", shown_in_readme()["python"], cwd=self.folder, env=alone())

    def test_the_lines_of_its_page(self):
        page = read("bindings/python/README.md").decode()
        table = "".join(f"{line[4:]}\n" for line in page.splitlines() if line.startswith("    ") and line[4] in "╭│├╰")
        lines = re.search(r"^```python\n(.*?)^```$", page, re.M | re.S)[1]
        self.assertEnds(self.ran("-c", lines, NO_COLOR="1"), table.encode())

    def test_tables_as_the_program_prints_them(self):
        """Of rows as cells, and of their text."""
        cases = list(requests(random.Random(412), 200))
        ran = ended([self.python, "-B", "-c", PRINTS], json.dumps(cases).encode(), cwd=self.folder, env=alone())
        self.assertEqual(ran.returncode, 0, ran.stderr.decode())
        for (rows, headers, text, asked), found in zip(cases, json.loads(ran.stdout)):
            words = [*([] if headers else ["--no-header"]), "--delimiter", ",", *words_of(asked)]
            with self.subTest(f"{' '.join(words)} of {text!r}"):
                wanted = ended([self.program, *words], text.encode())
                self.assertEqual(wanted.returncode, 0, wanted.stderr.decode())
                for it in found:
                    self.assertSame(it.encode(), wanted.stdout)


class InPlace(Built):
    """The package as it is in this repository, over the library that BASINMUG_LIBRARY names."""

    def test_the_lines_of_the_readme(self):
        found = alone(PYTHONPATH=f"{ROOT}/bindings/python", BASINMUG_LIBRARY="lib/libbasinmug.so.0")
        self.assertReport(sys.executable, "-B", "-c", shown_in_readme()["python"], cwd=ROOT, env=found)

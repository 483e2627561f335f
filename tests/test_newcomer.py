"""Five files that people have, as `basinmug` prints them without an option in a terminal of 80 columns."""
import os
import shutil
import tempfile

from common import Case, environment, launched, program
from test_basinmug import boxed
from test_launcher import on_terminal



def forty(letter):
    """The fields of forty columns, by their numbers."""
    return [f"{letter}{number}" for number in range(40)]


def that_fit(letter):
    """Those of them that fit into 80 columns, which take 76: the first seven and the last six."""
    return [*forty(letter)[:7], "…", *forty(letter)[34:]]


# What it is, the name of the file, what is in it, and its table.
FILES = [
    ("semicolons", "prices.csv", "name;price\napples;0.25\npears;12.50\n",
     boxed(["name  ", "price"], ["apples", " 0.25"], ["pears ", "12.50"])),
    ("forty columns", "wide.csv", ",".join(forty("c")) + "\n" + ",".join(forty("v")) + "\n",
     boxed(that_fit("c"), that_fit("v")) + "(13 of 40 columns)\n"),
    ("ragged records", "ragged.csv", "a,b\nx\ny,z,w\n",
     boxed(["a", "b", " "], ["x", " ", " "], ["y", "z", "w"])),
    ("from a spreadsheet", "sheet.csv", "\ufeffsep=;\r\nname;note\r\nlog;\"a, b\"\r\n",
     boxed(["name", "note"], ["log ", "a, b"])),
    ("a pipe of comma-separated text", None, "a,b\n1,2\n", boxed(["a", "b"], ["1", "2"])),
]


class Newcomer(Case):
    """The program under its launcher, as `make install` puts both."""

    @classmethod
    def setUpClass(cls):
        folder = tempfile.TemporaryDirectory(prefix="newcomer-")
        cls.addClassCleanup(folder.cleanup)
        cls.folder = folder.name
        cls.launcher, started = launched(cls.folder)
        shutil.copy(program("basinmug"), started)

    def test_files_without_an_option(self):
        for what, name, given, wanted in FILES:
            with self.subTest(what), open(f"{self.folder}/{name or 'piped'}", "w+", encoding="utf-8", newline="") as it:
                it.write(given)
                it.seek(0)
                words = [it.name] if name else []
                wrote, status = on_terminal([self.launcher, *words], 80, environment(), it)
                self.assertSame(wrote.replace(b"\r\n", b"\n"), wanted.encode())
                self.assertEqual(status, 0)

"""What the tests from outside have in common: what they run, how they hold what it wrote, and how they are counted."""
import functools
import os
import re
import resource
import shutil
import signal
import subprocess
import sys
import tempfile
import unittest

sys.dont_write_bytecode = True
ROOT = os.path.dirname(os.path.dirname(os.path.abspath(__file__)))
SECONDS = 120


def read(path):
    """The bytes of a file of this repository."""
    with open(os.path.join(ROOT, path), "rb") as it:
        return it.read()


def environment(**more):
    """The environment without COLUMNS and what a `make` around the tests put there, but for what is put there."""
    kept = {name: value for name, value in os.environ.items() if not name.startswith(("MAKE", "MFLAGS", "COLUMNS"))}
    return {**kept, **more}


@functools.cache
def built(name):
    """Proves and builds a file of this repository, only where something has changed, and gives its path."""
    ran = subprocess.run(["make", "-s", name], cwd=ROOT, env=environment(), stdin=subprocess.DEVNULL, stdout=sys.stderr)
    if ran.returncode:
        raise RuntimeError(f"{name} is not proved, or was not built")
    return os.path.join(ROOT, name)


def other_program(name):
    """The program that is tested in place of one of this repository, where TEST_COLUMNS or TEST_BASINMUG names one."""
    given = os.environ.get(f"TEST_{name.upper()}")
    return given and os.path.abspath(given)


def program(name):
    """The path of a program, which is built where no other is tested in its place."""
    return other_program(name) or built(f"crates/{name}/out/{name}")


def launched(folder):
    """Puts the launcher into a folder, as `make install` does; gives its path, and where the program is that it starts."""
    for name in ("bin", "libexec"):
        os.mkdir(f"{folder}/{name}")
    launcher = shutil.copy(f"{ROOT}/tools/launcher", f"{folder}/bin/basinmug")
    return launcher, f"{folder}/libexec/basinmug"


def limited(**limits):
    """What a program runs under: sizes of memory and of files, processor time, numbers of files."""
    def limit():
        signal.signal(signal.SIGXFSZ, signal.SIG_IGN)
        for name, most in limits.items():
            resource.setrlimit(getattr(resource, f"RLIMIT_{name}"), (most, most))
    return limit


def kit():
    """The folder of the toolchain."""
    said = subprocess.run(["rt", "doc"], stdout=subprocess.PIPE, check=True, text=True).stdout
    return os.path.dirname(said.strip())


def table(rows, measure=len):
    """The table of these rows, by its definition: each column is as wide as its widest cell and one
    space at either side, a short row is filled with empty cells, and a border is above the first
    row and below each one."""
    columns = max((len(row) for row in rows), default=0)
    if columns == 0:
        return ""
    rows = [row + [""] * (columns - len(row)) for row in rows]
    widths = [2 + max(measure(row[column]) for row in rows) for column in range(columns)]
    border = "+" + "".join("-" * width + "+" for width in widths) + "\n"
    lines = [border]
    for row in rows:
        cells = (f" {cell}{' ' * (width - 1 - measure(cell))}|" for cell, width in zip(row, widths))
        lines += ["|", *cells, "\n", border]
    return "".join(lines)


def shown(data, most=160):
    """Bytes for a message, cut where they are long."""
    return repr(data) if len(data) <= most else f"{data[:most]!r}.. ({len(data)} bytes)"


def ended(words, given=b"", **how):
    """Runs a command on bytes, or on what `how` has for its streams, to its end."""
    how = {"stdout": subprocess.PIPE, "stderr": subprocess.PIPE, "env": environment(), "timeout": SECONDS, **how}
    return subprocess.run(words, **how) if "stdin" in how else subprocess.run(words, input=given, **how)


def called(command, name, path, folder, given=b""):
    """Runs a command of the shell on bytes in a folder, where this name calls the program of this path."""
    with tempfile.TemporaryDirectory(prefix="called-") as names:
        os.symlink(path, f"{names}/{name}")
        return ended(["sh", "-c", command], given, cwd=folder, env=environment(PATH=f"{names}:{os.environ['PATH']}"))


def manual_examples(name):
    """The commands below EXAMPLES of a program's manual page, as a reader sees them."""
    page = read(f"docs/{name}.1").decode().partition(".SH EXAMPLES\n")[2].partition(".SH ")[0]
    return [it.replace("\\-", "-").replace("\\(rs", "\\") for it in re.findall(r"^\.B (.*)$", page, re.M)]


class Case(unittest.TestCase):
    """A test of what a program does. The program that is tested is `program`."""

    program = None

    def assertSame(self, wrote, wanted):
        """Two texts are the same; else the message says where they differ first."""
        if wrote != wanted:
            at = len(os.path.commonprefix([wrote, wanted]))
            start = max(at - 20, 0)
            self.fail(f"they differ at byte {at}: {shown(wrote[start:at + 60])}, wanted {shown(wanted[start:at + 60])}")

    def assertEnds(self, ran, wanted=b"", status=0, said=b""):
        """A run ended with this status, and wrote these bytes on both streams, as far as they were kept."""
        self.assertEqual((ran.returncode, ran.stderr), (status, said if ran.stderr is not None else None))
        if ran.stdout is not None:
            self.assertSame(ran.stdout, wanted)

    def assertPrints(self, given, wanted, *words, **how):
        """The program prints these bytes of its input, with these arguments."""
        self.assertEnds(ended([self.program, *words], given, **how), wanted)

    def assertRefuses(self, given, said, *words, status=1, **how):
        """The program refuses its input, with these arguments: it writes nothing and says this."""
        self.assertEnds(ended([self.program, *words], given, **how), status=status, said=said)


class Peaks(Case):
    """A test of how much memory the program `name` holds, at two sizes of an input, within a limit of `limit` bytes of addresses.

    The limit is what shows a growth by the square. What two runs of one program hold may differ by `PAGES` bytes: by where
    heap and stack begin, which is chosen for each run, and by buffers that grow to twice of what they had.
    """

    PAGES = 2 << 20
    name = limit = None

    @classmethod
    def setUpClass(cls):
        cls.program = program(cls.name)
        folder = tempfile.TemporaryDirectory(prefix="peaks-")
        cls.addClassCleanup(folder.cleanup)
        cls.given, cls.peak = f"{folder.name}/given", f"{folder.name}/peak"
        subprocess.run([os.environ.get("CC", "cc"), "-O2", "-o", cls.peak, f"{ROOT}/bench/costs/peak.c"], check=True)

    def held(self, text, *words):
        """The most bytes that a run on this input held, as `bench/costs/peak.c` says."""
        with open(self.given, "wb") as it:
            it.write(text)
        limits = (self.limit, self.limit)
        ran = ended(
            [self.peak, self.given, self.program, *words], stdin=subprocess.DEVNULL,
            preexec_fn=lambda: resource.setrlimit(resource.RLIMIT_AS, limits),
        )
        self.assertEqual((ran.returncode, ran.stderr), (0, b""))
        return int(ran.stdout.split()[0]) * 1024

    def assertGrowsEvenly(self, text, count, *words):
        """At twice the count a run holds at most twice as much, above what it holds for no input. How much that is."""
        least = self.held(b"", *words)
        few, many = (self.held(text(it), *words) - least for it in (count, 2 * count))
        self.assertLessEqual(many, 2.1 * few + self.PAGES)
        return many


class Counted(unittest.TextTestResult):
    """What tests came to: each row of a table (`subTest`) counts as a test, and a test without rows as one."""

    def __init__(self, *given):
        super().__init__(*given)
        self.passed = self.rows = 0

    @property
    def failed(self):
        return len(self.failures) + len(self.errors) + len(self.unexpectedSuccesses)

    def startTest(self, test):
        super().startTest(test)
        self.rows = 0

    def addSubTest(self, test, subtest, err):
        super().addSubTest(test, subtest, err)
        self.rows += 1
        self.passed += err is None

    def addSuccess(self, test):
        super().addSuccess(test)
        self.passed += self.rows == 0


def counted(folder, pattern, stream=None):
    """Runs the tests of a folder whose files have names of this pattern: how many passed, and how many failed."""
    tests = unittest.TestLoader().discover(os.path.join(ROOT, folder), pattern)
    result = unittest.TextTestRunner(stream or sys.stdout, verbosity=2, resultclass=Counted).run(tests)
    return result.passed, result.failed

"""Runs the built `columns` where the machine gives less than it requests, or where much is requested of it.

Inputs without an end under a limit of memory; lines, columns and sequences by the million; a program that is killed
while it writes; standard input that is closed; and a file that is full at each byte from 1 to 4,096. It takes some
minutes and up to 1 GB, so it is outside `make test`: `make long` runs it.
"""
import contextlib
import os
import random
import resource
import subprocess
import sys
import tempfile
import time

sys.path.insert(0, os.path.dirname(os.path.dirname(os.path.abspath(__file__))))
from common import Case, ended, limited, program, table

SECONDS = 600
MEMORY = 256 << 20
FULL_UP_TO = 4096
MILLION = 1_000_000
KINDS = ("", "--width 80", "--width 80 --truncate", "--width 80 --keep-words", "--width 0", "--width 0 --truncate", "--streamed")
# What is fed again and again.
PIECES = (
    ("rows", b"a\tb\n" * (1 << 18)),
    ("a line", b"abcdefgh" * (1 << 17)),
    ("columns", b"\t" * (1 << 20)),
    ("sequences", b"\x1b[31m" * (1 << 18)),
    ("empty rows", b"\n" * (1 << 20)),
)


def texts():
    """Texts, and how many seconds of processor time they may take."""
    yield "64 MB in a line", b"abcdefg " * (8 << 20) + b"\n", 60
    yield "64 MB in a word beside a cell", b"a\t" + b"x" * (64 << 20) + b"\n", 60
    yield "a million columns", b"\t" * MILLION + b"\n", 60
    yield "a million sequences and a letter", b"\x1b[31m" * MILLION + b"x\x1b[0m\n", 60
    yield "a million letters, each in a colour", b"\x1b[31mx\x1b[0m" * MILLION + b"\n", 120
    yield "a million empty rows", b"\n" * MILLION, 60


def fed(words, piece, seconds):
    """Feeds a piece again and again until the program takes no more: what it wrote and said, its status, and what it took."""
    ran = subprocess.Popen(words, stdin=subprocess.PIPE, stdout=subprocess.PIPE, stderr=subprocess.PIPE, preexec_fn=limited(AS=MEMORY))
    taken, began = 0, time.time()
    with contextlib.suppress(BrokenPipeError):
        while time.time() - began < seconds:
            taken += ran.stdin.write(piece)
            ran.stdin.flush()
    with contextlib.suppress(BrokenPipeError):
        ran.stdin.close()
    with ran.stdout, ran.stderr:
        return ran.stdout.read(), ran.stderr.read(), ran.wait(), taken


class Machine(Case):
    @classmethod
    def setUpClass(cls):
        cls.program = program("columns")

    def test_memory_ends_before_an_input_without_an_end(self):
        """It is said by name, and nothing is written."""
        for name, piece in PIECES:
            for words in ("", "--width 80"):
                with self.subTest(f"{name}, {words}"):
                    out, said, status, taken = fed([self.program, *words.split()], piece, 120)
                    self.assertEqual((status, out, said), (1, b"", b"columns: out of memory\n"), f"after {taken} bytes")

    def test_texts_by_the_million_take_no_more_than_linear_time(self):
        for name, given, most in texts():
            for words in KINDS:
                with self.subTest(f"{name}, {words}"):
                    began = resource.getrusage(resource.RUSAGE_CHILDREN).ru_utime
                    ran = ended([self.program, *words.split()], given, timeout=SECONDS)
                    took = resource.getrusage(resource.RUSAGE_CHILDREN).ru_utime - began
                    self.assertEqual((ran.returncode, ran.stderr, ran.stdout[-1:]), (0, b"", b"\n"))
                    self.assertLessEqual(took, most)

    def test_what_is_written_before_a_kill_is_a_prefix(self):
        rows = [[str(row), "x" * (row % 50)] for row in range(100_000)]
        want = table(rows).encode()
        for piece in (1, 4096, 65536, 100_000, 1_000_000):
            with self.subTest(f"after {piece} bytes"), tempfile.TemporaryFile() as file:
                file.write("".join("\t".join(row) + "\n" for row in rows).encode())
                file.seek(0)
                with subprocess.Popen([self.program], stdin=file, stdout=subprocess.PIPE, stderr=subprocess.PIPE) as ran:
                    out = ran.stdout.read(piece)
                    ran.kill()
                    out += ran.stdout.read()
                self.assertGreaterEqual(len(out), piece)
                self.assertSame(out, want[: len(out)])

    def test_closed_streams_are_faults_of_their_names(self):
        for which, said in ((0, b"columns: read failed\n"), (1, b"columns: write failed\n")):
            with self.subTest(f"descriptor {which}"):
                how = {"stdin": None} if which == 0 else {}
                self.assertRefuses(b"a\n", said, preexec_fn=lambda: os.close(which), **how)

    def test_a_file_that_is_full_holds_just_its_bytes_of_the_table(self):
        """At each byte up to 4,096."""
        seeded = random.Random(1)
        rows = [["".join(seeded.choice("abc ") for _ in range(seeded.randrange(12))) for _ in range(3)] for _ in range(80)]
        given = "".join("\t".join(row) + "\n" for row in rows).encode()
        want = table(rows).encode()
        self.assertGreater(len(want), FULL_UP_TO)
        for room in range(1, FULL_UP_TO + 1):
            with tempfile.TemporaryFile() as out:
                ran = ended([self.program], given, stdout=out, preexec_fn=limited(FSIZE=room))
                out.seek(0)
                self.assertEqual((ran.returncode, ran.stderr), (1, b"columns: write failed\n"), f"full at byte {room}")
                self.assertSame(out.read(), want[:room])

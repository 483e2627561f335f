"""Runs both built programs and the launcher where the machine gives less than they request, or is slow, or ends them.

Limits of memory, stack, files, processor time and sizes of files; 10 GB of input by a pipe under a limit of 4 GB; readers
and writers that are slow, or that take nothing; signals at random times. It takes some minutes and up to 4 GB, so it is
outside `make test`: `make long` runs it. What `columns` does alone is in test_machine.py.
"""
import contextlib
import fcntl
import os
import pty
import random
import signal
import subprocess
import sys
import tempfile
import time
import unittest

sys.path.insert(0, os.path.dirname(os.path.dirname(os.path.abspath(__file__))))
from common import Case, ended, environment, launched, limited, program

SECONDS = 600
MIB, GIB = 1 << 20, 1 << 30
MEMORY = 256 * MIB
STACK = 512 << 10
# What is fed again and again, and the arguments; no end of any of them fits in that memory.
PIECES = {
    "records": b"a,b\n" * (1 << 18), "a line": b"abcdefgh" * (1 << 17), "fields": b"," * MIB, "sequences": b"\x1b[31m" * (1 << 18), "empty lines": b"\n" * MIB,
    "quotes": b'"a""b",1\n' * (1 << 17), "an open quote": b'"' + b"a," * (1 << 19), "wide characters": "東,".encode() * (1 << 18), "zeros": b"\0" * MIB,
}
WORDS = ("", "--width 80", "--width 5 --truncate", "--max-rows 5", "--tail 5", "--expanded", "--style markdown", "--escapes none", "--escapes all --no-header")
OUT_OF_MEMORY = b"basinmug: out of memory\n"
# Bytes to which the system cuts a pipe that holds as little as it may.
PIPE = 4096


def records(count, seed=1):
    """A text of records with numbers, words and colours."""
    seeded = random.Random(seed)
    words = ["", "a", "two words", "\x1b[31mred\x1b[0m", "東京", "x" * 20, '"q""q"', '"l\nl"']
    return "id,text,more\n" + "".join(f"{at},{seeded.choice(words)},{seeded.choice(words)}\n" for at in range(count))


def fed(words, piece, most, limit=MEMORY, head=b""):
    """Feeds a piece until so many bytes are taken, or the program takes no more: what it wrote and said, its status, and how
    many bytes it took."""
    with tempfile.TemporaryFile() as out, tempfile.TemporaryFile() as said:
        ran = subprocess.Popen(words, stdin=subprocess.PIPE, stdout=out, stderr=said, env=environment(), preexec_fn=limited(AS=limit))
        taken = 0
        with contextlib.suppress(BrokenPipeError):
            taken += os.write(ran.stdin.fileno(), head) if head else 0
            while taken < most:
                taken += os.write(ran.stdin.fileno(), piece)
        with contextlib.suppress(BrokenPipeError):
            ran.stdin.close()
        status = ran.wait(SECONDS)
        out.seek(0), said.seek(0)
        return out.read(), said.read(), status, taken


class Programs(Case):
    """Both programs, and the launcher over `basinmug`: how each is called, its input and what it prints of that."""

    @classmethod
    def setUpClass(cls):
        folder = tempfile.TemporaryDirectory(prefix="a b ")
        cls.addClassCleanup(folder.cleanup)
        cls.folder = folder.name
        cls.program = program("basinmug")
        launcher, started = launched(cls.folder)
        os.symlink(cls.program, started)
        given = records(3000).encode()
        cls.runs = {}
        for name, words, text in (
            ("columns", [program("columns"), "--width", "40"], given.replace(b",", b"\t")), ("basinmug", [cls.program, "--width", "40"], given),
            ("expanded", [cls.program, "--expanded"], given), ("the launcher", [launcher, "--style", "markdown"], given),
        ):
            ran = ended(words, text, check=True)
            cls.runs[name] = words, text, ran.stdout


class Memory(Programs):
    """Less memory than an input takes."""

    def test_memory_ends_before_an_input_without_an_end(self):
        for name, piece in PIECES.items():
            for words in WORDS:
                with self.subTest(f"{name}, {words}"):
                    out, said, status, taken = fed([self.program, *words.split()], piece, GIB)
                    self.assertEqual((status, out, said), (1, b"", OUT_OF_MEMORY), f"after {taken} bytes")
                    self.assertLess(taken, MEMORY)

    def test_10_gb_by_a_pipe_under_4_gb(self):
        piece = b"1,abc\n" * (1 << 18)
        out, said, status, taken = fed([self.program], piece, 10 * GIB, 4 * GIB, b"id,text\n")
        self.assertEqual((status, out, said), (1, b"", OUT_OF_MEMORY), f"after {taken} bytes")
        self.assertGreater(taken, GIB)
        out, said, status, taken = fed([self.program, "--head", "10", "--style", "ascii"], piece, 10 * GIB, 4 * GIB, b"id,text\n")
        self.assertEqual((status, said), (0, b""))
        rule = b"+----+------+\n"
        self.assertSame(out, rule + b"| id | text |\n" + rule + b"|  1 | abc  |\n" * 10 + rule)
        self.assertLess(taken, 4 * MIB)

    def test_any_limit_leaves_a_prefix_and_a_message(self):
        """From the least in which a program starts, to one in which all is printed."""
        for name, (words, text, wanted) in self.runs.items():
            if name == "the launcher":
                continue
            said = f"{os.path.basename(words[0])}: out of memory\n".encode()
            starts = next(it for it in range(1, 256) if ended([words[0], "--version"], preexec_fn=limited(AS=it * MIB)).returncode == 0)
            limit, statuses = starts * MIB, []
            while not statuses or statuses[-1]:
                with self.subTest(f"{name} under {limit} bytes"):
                    ran = ended(words, text, preexec_fn=limited(AS=limit))
                    self.assertEqual((ran.returncode, ran.stderr), (1, said) if ran.returncode else (0, b""))
                    self.assertSame(ran.stdout, wanted[: len(ran.stdout)] if ran.returncode else wanted)
                statuses.append(ran.returncode)
                self.assertLess(limit, GIB)
                limit += 256 << 10

    def test_a_small_stack_suffices_for_any_input(self):
        deep = [b'"' + b'""' * MIB + b'"\n', b"," * MIB, b"\x1b[31m" * (1 << 18), b"a\n" * MIB]
        for name, (words, text, wanted) in self.runs.items():
            with self.subTest(name):
                self.assertEnds(ended(words, text, preexec_fn=limited(STACK=STACK)), wanted)
        for text in deep:
            with self.subTest(text[:10]):
                ran = ended([self.program, "--width", "40"], text, preexec_fn=limited(STACK=STACK), timeout=SECONDS)
                self.assertEqual((ran.returncode, ran.stderr), (0, b""))


class Files(Programs):
    """Few files, and files that are full."""

    def test_four_files_are_enough(self):
        """The three streams, and one more."""
        path = f"{self.folder}/text.csv"
        with open(path, "wb") as it:
            it.write(b"a,b\n1,2\n")
        wanted = ended([self.program, path], check=True).stdout
        self.assertEnds(ended([self.program, path], preexec_fn=limited(NOFILE=4)), wanted)
        for name, (words, text, wanted) in self.runs.items():
            if name != "the launcher":
                with self.subTest(name):
                    self.assertEnds(ended(words, text, preexec_fn=limited(NOFILE=4)), wanted)

    def test_a_file_that_is_full_holds_just_its_bytes(self):
        """At each byte up to 300, and at some after them. Those of `columns` are in test_machine.py."""
        for name, (words, text, wanted) in self.runs.items():
            if name == "columns":
                continue
            fault = b"basinmug: File too large (os error 27)\n"
            for room in (*range(1, 301), 4095, 4096, 4097, 65535, 65536, 65537, len(wanted) - 1):
                with tempfile.TemporaryFile() as out:
                    ran = ended(words, text, stdout=out, preexec_fn=limited(FSIZE=room))
                    out.seek(0)
                    self.assertEqual((ran.returncode, ran.stderr), (1, fault), f"{name} full at byte {room}")
                    self.assertSame(out.read(), wanted[:room])

    def test_a_full_disk_and_a_full_message(self):
        for name, (words, text, _) in self.runs.items():
            fault = b"columns: write failed\n" if name == "columns" else b"basinmug: No space left on device (os error 28)\n"
            with self.subTest(name), open("/dev/full", "wb") as full:
                self.assertEnds(ended(words, text, stdout=full), None, 1, fault)
                self.assertEqual(ended(words, text, stdout=full, stderr=full).returncode, 1)

    def test_all_streams_are_closed(self):
        for name, (words, _, _) in self.runs.items():
            with self.subTest(name):
                ran = subprocess.run(words, env=environment(), preexec_fn=lambda: os.closerange(0, 3), timeout=SECONDS)
                self.assertIn(ran.returncode, (0, 1))

    def test_a_pipe_that_cannot_take_more_now(self):
        """What was written is a prefix, and the error is that of the system."""
        for name, (words, text, wanted) in self.runs.items():
            fault = b"columns: write failed\n" if name == "columns" else b"basinmug: Resource temporarily unavailable (os error 11)\n"
            with self.subTest(name):
                read_end, write_end = os.pipe()
                fcntl.fcntl(write_end, fcntl.F_SETPIPE_SZ, PIPE)
                os.set_blocking(write_end, False)
                with os.fdopen(read_end, "rb") as pipe:
                    with os.fdopen(write_end, "wb") as full:
                        ran = ended(words, text, stdout=full)
                    out = pipe.read()
                self.assertEqual((ran.returncode, ran.stderr), (1, fault))
                self.assertSame(out, wanted[: len(out)])


class Slow(Programs):
    """Readers and writers that take their time, and processor time that ends."""

    def test_bytes_come_and_go_in_small_parts(self):
        for name, (words, text, wanted) in self.runs.items():
            with self.subTest(name):
                seeded = random.Random(7)
                read_end, write_end = os.pipe()
                fcntl.fcntl(write_end, fcntl.F_SETPIPE_SZ, PIPE)
                with subprocess.Popen(words, stdin=subprocess.PIPE, stdout=write_end, stderr=subprocess.PIPE, env=environment()) as ran:
                    os.close(write_end)
                    at, out = 0, []
                    while at < len(text):
                        at += os.write(ran.stdin.fileno(), text[at : at + seeded.choice((1, 2, 3, 100, 5000))])
                        if seeded.random() < 0.05:
                            time.sleep(0.001)
                    ran.stdin.close()
                    while part := os.read(read_end, seeded.choice((1, 7, 100, PIPE, 70_000))):
                        out.append(part)
                        if seeded.random() < 0.02:
                            time.sleep(0.001)
                    os.close(read_end)
                    said = ran.stderr.read()
                self.assertEqual((ran.returncode, said), (0, b""))
                self.assertSame(b"".join(out), wanted)

    def test_processor_time_ends(self):
        """A run that takes more is ended by the signal for that, and says nothing."""
        for name, words in (("columns", [program("columns"), "--width", "30"]), ("basinmug", [self.program, "--width", "30"])):
            with self.subTest(name):
                text = b"a b c d e f g h,i j k\n" * (4 << 20)
                with tempfile.TemporaryFile() as given:
                    given.write(text)
                    given.seek(0)
                    ran = ended(words, stdin=given, preexec_fn=limited(CPU=1), timeout=SECONDS)
                self.assertIn(ran.returncode, (-signal.SIGXCPU, -signal.SIGKILL, 0))
                self.assertEqual(ran.stderr, b"")


class Signals(Programs):
    """Signals at random times."""

    RUNS = 60

    def test_what_is_written_before_an_end_is_a_prefix(self):
        seeded = random.Random(3)
        for name, (words, text, wanted) in self.runs.items():
            for _ in range(self.RUNS):
                which = seeded.choice((signal.SIGKILL, signal.SIGTERM, signal.SIGINT, signal.SIGHUP, signal.SIGQUIT))
                with self.subTest(f"{name}, {which.name}"), tempfile.TemporaryFile() as given, tempfile.TemporaryFile() as out:
                    given.write(text)
                    given.seek(0)
                    no_core = limited(CORE=0)
                    with subprocess.Popen(words, stdin=given, stdout=out, stderr=subprocess.PIPE, env=environment(), preexec_fn=no_core) as ran:
                        time.sleep(seeded.random() * 0.02)
                        ran.send_signal(which)
                        said = ran.stderr.read()
                    out.seek(0)
                    wrote = out.read()
                    self.assertIn(ran.returncode, (-which, 0))
                    self.assertEqual(said, b"")
                    self.assertSame(wrote, wanted if ran.returncode == 0 else wanted[: len(wrote)])

    def test_a_run_that_is_stopped_goes_on(self):
        for name, (words, text, wanted) in self.runs.items():
            with self.subTest(name):
                seeded = random.Random(5)
                with tempfile.TemporaryFile() as given, tempfile.TemporaryFile() as out:
                    given.write(text)
                    given.seek(0)
                    with subprocess.Popen(words, stdin=given, stdout=out, stderr=subprocess.PIPE, env=environment()) as ran:
                        for _ in range(20):
                            for which in (signal.SIGSTOP, signal.SIGCONT, signal.SIGWINCH, signal.SIGCHLD):
                                ran.send_signal(which)
                                time.sleep(seeded.random() * 0.002)
                        said = ran.stderr.read()
                    out.seek(0)
                    self.assertEqual((ran.returncode, said), (0, b""))
                    self.assertSame(out.read(), wanted)

    def test_a_terminal_that_is_closed_ends_the_launcher(self):
        """It leaves no process behind."""
        master, slave = pty.openpty()
        words, text, _ = self.runs["the launcher"]
        with tempfile.TemporaryFile() as given:
            given.write(text)
            given.seek(0)
            ran = subprocess.Popen(words, stdin=given, stdout=slave, stderr=slave, env=environment(), start_new_session=True)
            os.close(slave)
            os.read(master, 10)
            os.close(master)
            self.assertIn(ran.wait(SECONDS), (0, 1, -signal.SIGHUP))


if __name__ == "__main__":
    unittest.main()

"""Tests of standard streams that take nothing, or stop taking, which both programs pass."""
import os
import subprocess
import tempfile

from common import SECONDS, ended, environment


class Outputs:
    """No signal. A class of tests has besides what the program reads, what it says where the disk is full and where
    standard output is closed, and an input that it refuses."""

    given = full = closed = refused = None
    # A text whose table is larger than any pipe holds, and how that table begins.
    large = front = None
    # The status, and what is said, where nobody reads what is written.
    left = None

    def test_a_full_disk_is_a_write_fault(self):
        for name, given, words in (("a table", self.given, []), ("the help", b"", ["--help"])):
            with self.subTest(name), open("/dev/full", "wb") as full:
                self.assertRefuses(given, self.full, *words, stdout=full)

    def test_a_full_disk_takes_no_bytes(self):
        with open("/dev/full", "wb") as full:
            self.assertPrints(b"", None, stdout=full)

    def test_a_full_disk_for_the_message_leaves_the_status(self):
        with open("/dev/full", "wb") as full:
            self.assertRefuses(self.refused, None, stderr=full)

    def test_closed_standard_output_is_a_write_fault(self):
        self.assertRefuses(self.given, self.closed, stdout=None, preexec_fn=lambda: os.close(1))

    def test_a_pipe_that_nobody_reads(self):
        for name, given, words in (("a table", self.given, []), ("the help", b"", ["--help"])):
            read_end, write_end = os.pipe()
            os.close(read_end)
            with self.subTest(name), os.fdopen(write_end, "wb") as pipe:
                ran = ended([self.program, *words], given, stdout=pipe)
                self.assertEqual((ran.returncode, ran.stderr), self.left)

    def test_a_reader_that_leaves(self):
        """The program is still writing when its reader goes."""
        with tempfile.TemporaryFile() as text:
            text.write(self.large)
            text.seek(0)
            with subprocess.Popen([self.program], stdin=text, stdout=subprocess.PIPE, stderr=subprocess.PIPE, env=environment()) as started:
                front = started.stdout.read(len(self.front))
                started.stdout.close()
                said = started.stderr.read()
                started.wait(SECONDS)
        self.assertSame(front, self.front)
        self.assertEqual((started.returncode, said), self.left)

"""Holds the launcher that `make install` puts as `basinmug`: it gives the program the width of the terminal, and passes on
the arguments, the streams and the status. A program of the tests' own is in place of the real one and prints what it was given."""
import fcntl
import os
import pty
import struct
import subprocess
import tempfile
import termios
import unittest

from common import SECONDS, Case, environment, launched

# Prints its width and its arguments, and ends with a status of its own.
STAND_IN = """#!/bin/sh
printf '%s' "${COLUMNS-none}"
for word; do printf '|%s' "$word"; done
exit 7
"""


def on_terminal(words, columns, env, given=subprocess.DEVNULL):
    """What a command writes to a terminal of so many columns, and its status. It reads an open file, or nothing."""
    master, slave = pty.openpty()
    fcntl.ioctl(slave, termios.TIOCSWINSZ, struct.pack("HHHH", 24 if columns else 0, columns, 0, 0))
    with subprocess.Popen(words, stdin=given, stdout=slave, stderr=slave, env=env) as started:
        os.close(slave)
        said = b""
        while True:
            try:
                part = os.read(master, 4096)
            except OSError:  # the terminal is closed
                break
            if not part:
                break
            said += part
        started.wait(SECONDS)
    os.close(master)
    return said, started.returncode


class Launcher(Case):
    """The launcher in a folder whose name has a space."""

    def setUp(self):
        room = tempfile.TemporaryDirectory(prefix="a b ")
        self.addCleanup(room.cleanup)
        self.folder = room.name
        self.launcher, started = launched(self.folder)
        with open(started, "w", encoding="utf-8") as it:
            it.write(STAND_IN)
        os.chmod(started, 0o755)

    def assertSays(self, columns, wanted, *words, env=None, launcher=None):
        said = on_terminal([launcher or self.launcher, *words], columns, environment() if env is None else env)
        self.assertEqual(said, (wanted, 7))

    def test_the_width_of_the_terminal_is_reported(self):
        for columns in (80, 40, 1):
            with self.subTest(columns):
                self.assertSays(columns, str(columns).encode())

    def test_a_terminal_without_a_size_reports_none(self):
        self.assertSays(0, b"none")

    def test_columns_goes_before_the_terminal(self):
        for columns in ("33", "0", ""):
            with self.subTest(columns):
                self.assertSays(80, columns.encode(), env=environment(COLUMNS=columns))

    def test_without_stty_none_is_reported(self):
        os.mkdir(f"{self.folder}/empty")
        self.assertSays(80, b"none", env=environment(PATH=f"{self.folder}/empty"))

    def test_an_empty_environment_is_no_error(self):
        self.assertEqual(on_terminal([self.launcher, "x"], 80, {})[1], 7)

    def test_where_standard_output_is_no_terminal_none_is_reported(self):
        ran = subprocess.run([self.launcher], stdout=subprocess.PIPE, stderr=subprocess.PIPE, env=environment(), timeout=SECONDS)
        self.assertEqual((ran.stdout, ran.stderr, ran.returncode), (b"none", b"", 7))

    def test_arguments_are_passed_on(self):
        self.assertSays(80, b"80|--width|none|a  b||*|-n", "--width", "none", "a  b", "", "*", "-n")

    def test_it_is_found_through_links(self):
        os.mkdir(f"{self.folder}/elsewhere")
        os.symlink(self.launcher, f"{self.folder}/elsewhere/table")
        self.assertSays(80, b"80|x", "x", launcher=f"{self.folder}/elsewhere/table")

    def test_it_is_found_on_the_path(self):
        self.assertSays(80, b"80|x", "-c", "basinmug x", env=environment(PATH=f"{self.folder}/bin:{os.environ['PATH']}"), launcher="/bin/sh")


if __name__ == "__main__":
    unittest.main()

"""Runs the built program `basinmug` on texts from strangers, whose escape sequences would do something to a terminal.

What is printed is compared by bytes. Besides, each output is read by a small reader of its own: no control character but
LF is in it, an ESC only where a sequence of colours begins, and each line closes what it opens. Outputs of programs
that write colours are in tests/hostile, beside the tables that are made of them. Three texts are shown in a terminal of
`tmux`, whose cursor, title and screen they leave alone; where there is no `tmux`, a line says so. TEST_BASINMUG may name
another program.
"""
import os
import re
import shutil
import subprocess
import sys
import tempfile
import time
import unittest

from common import Case, ended, program, read

# What a cell of a stranger says before the name `mallory`, and what is shown of it.
TEXTS = {
    "goes up and writes over the number of another": ("\x1b7\x1b[1A\x1b[20G999\x1b8", "␛7␛[1A␛[20G999␛8"),
    "sets the clipboard": ("\x1b]52;c;SE9TVElMRQ==\x07", "␛]52;c;SE9TVElMRQ==␇"),
    "sets the title of the window": ("\x1b]0;HOSTILE\x07", "␛]0;HOSTILE␇"),
    "has the terminal type answers": ("\x1b[c\x1b[6n\x1b[5n", "␛[c␛[6n␛[5n"),
    "goes to the other screen, clears it, hides the cursor": ("\x1b[?1049h\x1b[2J\x1b[?25l", "␛[?1049h␛[2J␛[?25l"),
    "draws letters as lines": ("\x1b(0", "␛(0"),
    "resets the terminal": ("\x1bc", "␛c"),
    "asks by a control string": ("\x1bP$qm\x1b\\", "␛P$qm␛\\"),
    "opens a link and leaves it open": ("\x1b]8;;http://hostile.example/\x1b\\", "␛]8;;http://hostile.example/␛\\"),
    "sets a background with colons": ("\x1b[48:5:196m", "␛[48:5:196m"),
    "underlines in curls": ("\x1b[4:3m", "␛[4:3m"),
    "conceals what follows": ("\x1b[8m", "␛[8m"),
    "conceals between colours": ("\x1b[31;8;1m", "␛[31;8;1m"),
    "sets what no code clears": ("\x1b[66m", "␛[66m"),
    "ends a string by a control character of C1": ("\x1b]0;t\x9cSHOWN\x07", "␛]0;t\ufffdSHOWN␇"),
    "turns letters": ("\u202e321", "\ufffd321"),
    "isolates letters": ("\u2067321", "\ufffd321"),
    "begins no sequence": ("\x1bé", "␛é"),
    "begins no sequence twice": ("\x1b\x1b[é", "␛␛[é"),
    "begins no colour, and then one that clears all": ("\x1b\x1b[m", "␛\x1b[m"),
    "ends in the midst of a colour": ("\x1b[38;2;1;2m", "␛[38;2;1;2m"),
    "rings, and goes back": ("\x07\x08\x7f", "␇␈␡"),
    "clears the line, as programs do beside colours": ("a\x1b[Kb\x1b[0Kc\x1b(B", "abc"),
    "clears all of the line": ("\x1b[2K", "␛[2K"),
}
# What is requested of a table of each.
ASKS = ["", "--escapes colors", "--escapes none", "--expanded", "--style markdown", "--width 40", "--width 20 --truncate", "--rules all --no-header"]

# Codes that set and clear something, and those of them that clear (ECMA-48, 8.3.117, and what terminals add to it).
CODES = {*range(8), *range(9, 38), *range(39, 48), *range(49, 56), *range(59, 66), *range(73, 76), *range(90, 98), *range(100, 108)}
CLEARS = {1: 22, 2: 22, 3: 23, 4: 24, 5: 25, 6: 25, 7: 27, 9: 29, 20: 23, 21: 24, 26: 50, 38: 39, 48: 49, 51: 54, 52: 54, 53: 55, 58: 59, 73: 75, 74: 75,
          **dict.fromkeys(range(11, 20), 10), **dict.fromkeys([*range(30, 38), *range(90, 98)], 39),
          **dict.fromkeys([*range(40, 48), *range(100, 108)], 49), **dict.fromkeys(range(60, 65), 65)}
SGR = re.compile("\x1b\\[([0-9;]*)m")

# How many sequences are in one cell where there are many.
MANY = 20000


def in_csv(cell):
    """A cell in a text of four records; it holds no comma."""
    return f'account,balance\nalice,100\n"{cell}mallory",1\nbob,7\n'


def boxed(cell):
    """The table of that text, whose cell is shown so."""
    cells = [("account", "balance"), ("alice", "100"), (f"{cell}mallory", "1"), ("bob", "7")]
    columns = [len(SGR.sub("", left)) for left, _ in cells]
    wide = max(columns)
    lines = [f"│ {left}{' ' * (wide - own)} │ {right:>7} │\n" for own, (left, right) in zip(columns, cells)]
    first, middle, last = (f"{a}{'─' * (wide + 2)}{b}{'─' * 9}{c}\n" for a, b, c in ("╭┬╮", "├┼┤", "╰┴╯"))
    return "".join([first, lines[0], middle, *lines[1:], last])


def settings(parameters):
    """What codes set and clear, by the code that clears it; none where one is unknown or a colour is not whole."""
    numbers, found = [int(it or 0) for it in parameters.split(";")], []
    while numbers:
        code = numbers.pop(0)
        if code in (38, 48, 58):
            more = {5: 1, 2: 3}.get(numbers[0] if numbers else None)
            if more is None or len(numbers) <= more:
                return None
            numbers = numbers[1 + more:]
        elif code not in CODES:
            return None
        found.append(code)
    return found


class Hostile(Case):
    """Texts from strangers."""

    @classmethod
    def setUpClass(cls):
        cls.program = program("basinmug")

    def assertHarmless(self, text, closing=True):
        """No control character but LF, no ESC but of a sequence of known codes, and at the end of each line nothing is set."""
        opened = set()
        for line in text.split("\n"):
            self.assertIsNone(re.search("[\x00-\x1f\x7f-\x9f\u202a-\u202e\u2066-\u2069]", SGR.sub("", line)), line)
            for sequence in SGR.finditer(line):
                codes = settings(sequence[1])
                self.assertIsNotNone(codes, line)
                for code in codes:
                    opened = set() if code == 0 else opened | {CLEARS[code]} if code in CLEARS else opened - {code}
            self.assertFalse(closing and opened, line)

    def printed(self, text, *words):
        """What the program prints of a text; it has no error, and says nothing but that a table is wider than requested."""
        ran = ended([self.program, "--delimiter", ",", *words], text.encode())
        self.assertEqual(ran.returncode, 0, ran.stderr)
        self.assertIn(ran.stderr, (b"", b"basinmug: the table is wider than requested: --expanded shows records one below the other\n"))
        return ran.stdout.decode()

    def test_what_does_something_is_shown(self):
        for told, (cell, shown) in TEXTS.items():
            with self.subTest(told):
                self.assertSame(self.printed(in_csv(cell)), boxed(shown))

    def test_nothing_gets_to_the_terminal(self):
        for told, (cell, _) in TEXTS.items():
            with self.subTest(told):
                for words in ASKS:
                    self.assertHarmless(self.printed(in_csv(cell), *words.split()))

    def test_colours_stay(self):
        cell = "\x1b[1;38;5;8mx\x1b[0m \x1b[48;2;1;2;3my"
        ran = self.printed(f"a\n{cell}\n")
        self.assertIn("│ \x1b[1;38;5;8mx\x1b[0m \x1b[48;2;1;2;3my\x1b[49m │\n", ran)
        self.assertHarmless(ran)
        shown = cell.replace("\x1b", "␛")
        self.assertIn(f"│ {shown} │\n", self.printed(f"a\n{cell}\n", "--escapes", "none"))

    def test_under_none_the_colours_that_are_requested_are_left(self):
        ran = self.printed("a,b\n\x1b[31m1,2\n", "--escapes", "none", "--color", "1=red")
        self.assertEqual([it[0] for it in SGR.finditer(ran)], ["\x1b[31m", "\x1b[39m"] * 2)
        self.assertHarmless(ran)

    def test_all_takes_sequences_as_they_are(self):
        for told, (cell, _) in TEXTS.items():
            if not told.startswith(("begins", "rings")):
                with self.subTest(told):
                    self.assertIn(cell, self.printed(in_csv(cell), "--escapes", "all"))

    def test_all_refuses_what_begins_no_sequence(self):
        said = b"basinmug: standard input: line 3, field 1: an escape that begins no sequence\n"
        self.assertRefuses(in_csv("\x1bé").encode(), said, "--delimiter", ",", "--escapes", "all")

    def test_a_line_feed_in_a_string_begins_a_line(self):
        self.assertSame(self.printed('a\n"\x1b]0;b\nc\x07"\n'), "╭───────╮\n│ a     │\n├───────┤\n│ ␛]0;b │\n│ c␇    │\n╰───────╯\n")

    def test_a_delimiter_in_a_sequence_comes_first(self):
        ran = ended([self.program, "--delimiter", ";", "--no-header"], b"\x1b[1;31mred\n")
        self.assertEnds(ran, "╭─────┬────────╮\n│ ␛[1 │ 31mred │\n╰─────┴────────╯\n".encode())

    def test_names_are_those_that_are_shown(self):
        text = "\x1b[1mname\x1b[0m,\x1b[2Jsize\n1,2\n"
        ran = self.printed(text, "--align", "name=left,␛[2Jsize=left")
        self.assertIn("│ 1    │ 2        │\n", ran)
        said = "basinmug: there is no column size\n".encode()
        self.assertRefuses(text.encode(), said, "--delimiter", ",", "--color", "size=red")

    def test_messages_turn_nothing(self):
        said = "basinmug: there is no column a\ufffdb␛\n".encode()
        self.assertRefuses(b"x\n", said, "--color", "a\u202eb\x1b=red")

    def test_many_sequences_in_a_cell(self):
        many = [("\x1b]", "␛]"), ("\x1b]8;;a\x1b\\", "␛]8;;a␛\\"), ("\x1b[31m", "\x1b[31m"), ("\x1b[" + "1;" * 9 + "8m", "␛[" + "1;" * 9 + "8m"), ("\x1b", "␛")]
        for sequence, shown in many:
            with self.subTest(repr(sequence)):
                ran = self.printed(f"a\n{sequence * MANY}x\n")
                self.assertIn(shown * 3, ran)
                self.assertHarmless(ran)
        long = "\x1b[" + "1;" * MANY + "1m"
        self.assertHarmless(self.printed(f"a\n{long}x\n"))
        self.assertIn("␛]" + "a" * MANY, self.printed("a\n" + "\x1b]" + "a" * MANY + "\n"))

    def test_outputs_of_programs(self):
        for name, words in (("grep.csv", "--delimiter ,"), ("ls.tsv", "--delimiter tab"), ("links.tsv", "--delimiter tab"), ("compiler.txt", "--delimiter tab")):
            with self.subTest(name):
                wanted = read(f"tests/hostile/{name.partition('.')[0]}.table")
                self.assertPrints(read(f"tests/hostile/{name}"), wanted, "--no-header", *words.split())
                self.assertHarmless(wanted.decode())


class Terminal(Case):
    """A terminal of its own."""

    @classmethod
    def setUpClass(cls):
        cls.program = program("basinmug")

    def shown(self, text):
        """What a terminal of 30 lines shows of the table of a text, and how it is: its title, whether it is on the other screen or
        hides its cursor, and where that is."""
        with tempfile.TemporaryDirectory() as folder:
            with open(f"{folder}/text.csv", "w", encoding="utf-8") as it:
                it.write(text)
            tmux = ["tmux", "-S", f"{folder}/socket", "-f", "/dev/null"]
            how = {"check": True, "stdout": subprocess.PIPE, "encoding": "utf-8", "env": {**os.environ, "LC_ALL": "C.UTF-8", "TERM": "xterm"}}
            run = f"while ! [ -e {folder}/go ]; do sleep 0.05; done; {self.program} {folder}/text.csv; printf READY; exec sleep 60"
            subprocess.run([*tmux, "-u", "new-session", "-d", "-x", "70", "-y", "30", "-n", "plain", run], **how)
            try:
                subprocess.run([*tmux, "select-pane", "-T", "plain"], **how)
                open(f"{folder}/go", "w", encoding="utf-8").close()
                for _ in range(200):
                    screen = subprocess.run([*tmux, "capture-pane", "-p"], **how).stdout
                    if "READY" in screen:
                        break
                    time.sleep(0.05)
                state = subprocess.run([*tmux, "display-message", "-p", "#{pane_title} #{alternate_on} #{cursor_flag} #{cursor_x} #{cursor_y}"], **how).stdout
            finally:
                subprocess.run([*tmux, "kill-server"], **how)
        return screen.rstrip("\n"), state

    def test_cursor_title_and_screen_are_left_alone(self):
        if not shutil.which("tmux"):
            print("no tmux: what a terminal shows is not looked at", file=sys.stderr)
            return
        for told in ("goes up and writes over the number of another", "sets the title of the window", "goes to the other screen, clears it, hides the cursor"):
            with self.subTest(told):
                cell, shown = TEXTS[told]
                wanted = boxed(shown)
                self.assertEqual(self.shown(in_csv(cell)), (wanted + "READY", f"plain 0 1 5 {wanted.count(chr(10))}\n"))


if __name__ == "__main__":
    unittest.main()

"""Inputs of `columns` and what it prints of them, as the program and the library for other languages must: by hand.

Where a name begins a row, it says what the row shows.
"""

# What is refused, the input, and the error. A text that is not UTF-8 is refused at the length of its
# longest prefix that is, an escape character that begins no whole sequence at its own byte, and the
# first of these two comes first.
REFUSED = [
    ("an escape alone", b"\x1b", "escape at byte 0"),
    ("a control sequence that a line feed breaks off", b"a\tb\nred: \x1b[31\nc\x1b[0m\n", "escape at byte 9"),
    ("an escape behind a whole sequence", b"\x1b[31m\x1b[1", "escape at byte 5"),
    ("a window title that CANCEL breaks off", b"\x1b]0;a\x18b\x07\n", "escape at byte 0"),
    ("a window title with a sequence in it", b"\x1b]0;a\x1b[31m\n", "escape at byte 0"),
    ("a device control string that BEL does not end", b"a\x1bPq\x07\n", "escape at byte 1"),
    ("an escape behind characters of several bytes", "é漢😳".encode() + b"\x1b", "escape at byte 9"),
    ("an escape at the start of a row that would be dropped", b"a\n\x1b", "escape at byte 2"),
    ("a window title that does not end", b"\x1b]0;a", "escape at byte 0"),
    ("two escapes", b"ab\x1b\x1b", "escape at byte 2"),
    ("a byte that begins nothing", b"\x61\xff", "not UTF-8 at byte 1"),
    ("an escape before such a byte", b"\x1b\xff", "not UTF-8 at byte 1"),
    ("a sequence before such a byte", b"\x1b[31mred\x1b[0m\n\xfe", "not UTF-8 at byte 13"),
    ("a slash in two bytes (overlong)", b"\xc0\xaf", "not UTF-8 at byte 0"),
    ("a slash in three bytes (overlong)", b"/\xe0\x80\xaf", "not UTF-8 at byte 1"),
    ("a slash in four bytes (overlong)", b"\xf0\x80\x80\xaf", "not UTF-8 at byte 0"),
    ("an escape in two bytes (overlong)", b"\xc0\x9b", "not UTF-8 at byte 0"),
    ("a surrogate", b"\xed\xa0\x80", "not UTF-8 at byte 0"),
    ("a pair of surrogates", b"ok\t\xed\xa0\xbd\xed\xb8\x80", "not UTF-8 at byte 3"),
    ("a character past the last", b"\xf4\x90\x80\x80", "not UTF-8 at byte 0"),
    ("a text that ends inside a character", b"\xe2\x82", "not UTF-8 at byte 0"),
    ("a row that ends inside a character", b"a\t\xe2\x82\nb\n", "not UTF-8 at byte 2"),
    ("a byte that only continues a character", b"a\x80", "not UTF-8 at byte 1"),
    ("a letter and an overlong slash", b"a\xc0\xaf", "not UTF-8 at byte 1"),
    ("a surrogate behind two letters", b"ab\xed\xa0\x80", "not UTF-8 at byte 2"),
    ("a text that ends inside a character of three bytes", b"a\xe2\x82", "not UTF-8 at byte 1"),
    ("a text that ends inside a character of four bytes", b"\xc3\xa9\xf0\x9f\x98", "not UTF-8 at byte 2"),
    ("a window title behind text that does not end", b"ab\x1b]0;a", "escape at byte 2"),
    ("a far byte", b"abcdefg\n" * 20_000 + b"\xff", "not UTF-8 at byte 160000"),
    ("a far escape", b"abcdefg\n" * 20_000 + b"\x1b", "escape at byte 160000"),
]

# Inputs and their tables, written by hand. The widths are those of the toolchain's `unicode_width`
# (its README gives the rules); where a cell is not plain ASCII the remark says which rule decides.
TABLES = [
    ("two rows of two cells", "a\tb\n1\t2\n", """\
+---+---+
| a | b |
+---+---+
| 1 | 2 |
+---+---+
"""),
    ("no last line feed", "a\tb\n1\t2", """\
+---+---+
| a | b |
+---+---+
| 1 | 2 |
+---+---+
"""),
    ("nothing at all", "", ""),
    ("one empty row", "\n", "+--+\n|  |\n+--+\n"),
    ("a row, and an empty row", "a\n\n", """\
+---+
| a |
+---+
|   |
+---+
"""),
    ("empty rows before and between", "\na\n\nb", """\
+---+
|   |
+---+
| a |
+---+
|   |
+---+
| b |
+---+
"""),
    ("a tab alone", "\t", "+--+--+\n|  |  |\n+--+--+\n"),
    ("a short row", "a\tb\nc\n", """\
+---+---+
| a | b |
+---+---+
| c |   |
+---+---+
"""),
    ("a short row first, and a row that ends in a tab", "1\na\tbb\t\n", """\
+---+----+--+
| 1 |    |  |
+---+----+--+
| a | bb |  |
+---+----+--+
"""),
    ("a letter alone", "a", "+---+\n| a |\n+---+\n"),
    ("a tab at the end", "a\t", "+---+--+\n| a |  |\n+---+--+\n"),
    ("a short row first", "c\na\tbc", """\
+---+----+
| c |    |
+---+----+
| a | bc |
+---+----+
"""),
    ("spaces stay", "  a \t \n", "+------+---+\n|   a  |   |\n+------+---+\n"),
    # A control character inside a text counts one column: NUL, CR, form feed, BEL, DEL, NEL.
    ("NUL", "a\0b\tc\n12\t\n", "+-----+---+\n| a\0b | c |\n+-----+---+\n| 12  |   |\n+-----+---+\n"),
    # CR ends no row. CR and LF together would count one, but LF parts the rows first.
    ("CR before each line feed", "a\r\nb\r\n", "+----+\n| a\r |\n+----+\n| b\r |\n+----+\n"),
    ("CR inside a row", "a\rb\nc\n", "+-----+\n| a\rb |\n+-----+\n| c   |\n+-----+\n"),
    ("form feed", "\x0c\nab\n", "+----+\n| \x0c  |\n+----+\n| ab |\n+----+\n"),
    ("vertical tab", "a\x0bb\n", "+-----+\n| a\x0bb |\n+-----+\n"),
    ("BEL", "\x07\x07\n", "+----+\n| \x07\x07 |\n+----+\n"),
    ("DEL", "\x7f\nab\n", "+----+\n| \x7f  |\n+----+\n| ab |\n+----+\n"),
    ("NEL alone", "\x85\n", "+---+\n| \x85 |\n+---+\n"),
    ("NEL", "a\x85b\n", "+-----+\n| a\x85b |\n+-----+\n"),
    # Line and paragraph separator part no rows; neither is wide or ignorable, so each counts one.
    ("line separators of Unicode", "a\u2028b\u2029c\n", "+-------+\n| a\u2028b\u2029c |\n+-------+\n"),
    # A combining mark (Grapheme_Extend) counts none, also without a character before it.
    ("combining marks", "e\u0301\ta\u0308\u0323\nab\tc\n",
     "+----+---+\n| e\u0301  | a\u0308\u0323 |\n+----+---+\n| ab | c |\n+----+---+\n"),
    ("a letter with its mark", "e\u0301\n", "+---+\n| e\u0301 |\n+---+\n"),
    ("a mark alone", "\u0301\na\n", "+---+\n| \u0301  |\n+---+\n| a |\n+---+\n"),
    ("a mark behind a tab", "a\t\u0301b\n", "+---+---+\n| a | \u0301b |\n+---+---+\n"),
    # Default-ignorable characters count none: variation selectors, zero-width space and joiner,
    # byte order mark, soft hyphen, the override of direction.
    ("a variation selector alone", "\ufe0f\n", "+--+\n| \ufe0f |\n+--+\n"),
    ("a variation selector behind a letter", "a\ufe0f\nbc\n", "+----+\n| a\ufe0f  |\n+----+\n| bc |\n+----+\n"),
    ("a text selector alone", "\ufe0e\nb\n", "+---+\n| \ufe0e  |\n+---+\n| b |\n+---+\n"),
    ("characters that nobody sees", "\ufeffa\u200bb\u200dc\u00add\u202e\n", "+------+\n| \ufeffa\u200bb\u200dc\u00add\u202e |\n+------+\n"),
    # Right-to-left letters count one each and stay in the order of the input.
    ("Hebrew", "שלום\t1\nab\t2\n", "+------+---+\n| שלום | 1 |\n+------+---+\n| ab   | 2 |\n+------+---+\n"),
    # Lam and alef join to one column: seen, lam with alef, meem make three.
    ("Arabic", "سلام\t1\nab\t2\n", "+-----+---+\n| سلام | 1 |\n+-----+---+\n| ab  | 2 |\n+-----+---+\n"),
    # Wide characters (East_Asian_Width W or F) count two; halfwidth Katakana one.
    ("wide characters", "漢字\t한\nab\tｶﾅ\n", """\
+------+----+
| 漢字 | 한 |
+------+----+
| ab   | ｶﾅ |
+------+----+
"""),
    ("a fullwidth letter, and an ideographic space", "Ａ\u3000\nabcd\n", "+------+\n| Ａ\u3000 |\n+------+\n| abcd |\n+------+\n"),
    ("wide characters over a narrow one", "日本\tx\ny\n", """\
+------+---+
| 日本 | x |
+------+---+
| y    |   |
+------+---+
"""),
    ("an emoji over two letters", "😳\nab\n", "+----+\n| 😳 |\n+----+\n| ab |\n+----+\n"),
    ("an emoji", "😳\tb\n1\t2\n", "+----+---+\n| 😳 | b |\n+----+---+\n| 1  | 2 |\n+----+---+\n"),
    # Emoji sequences count two whole: by joiner, by skin tone, by presentation selector, by keycap, and
    # flags of two letters. A warning sign without its selector counts one.
    ("emoji sequences", "👩\u200d💻\n👍🏽\n\u26a0\ufe0f\n1\ufe0f\u20e3\n🇯🇵\n\u26a0\n", """\
+----+
| 👩\u200d💻 |
+----+
| 👍🏽 |
+----+
| \u26a0\ufe0f |
+----+
| 1\ufe0f\u20e3 |
+----+
| 🇯🇵 |
+----+
| \u26a0  |
+----+
"""),
    # No sequence reaches over a tab: each of the two letters of the flag counts one by itself.
    ("a flag cut by a tab", "🇯\t🇵\n", "+---+---+\n| 🇯 | 🇵 |\n+---+---+\n"),
    # Styled cells: each has its own sequences, opened and ended within it, and is as wide as what it shows.
    ("a colour over two cells", "\x1b[31mab\tc\n", "+----+---+\n| \x1b[31mab\x1b[39m | \x1b[31mc\x1b[39m |\n+----+---+\n"),
    ("bold over two rows", "\x1b[1ma\nb\x1b[0m\n", "+---+\n| \x1b[1ma\x1b[22m |\n+---+\n| \x1b[1mb\x1b[0m |\n+---+\n"),
    ("a sequence alone", "\x1b[31m", ""),
    ("a last row of sequences", "\x1b[1ma\n\x1b[0m\x1b[3m", "+---+\n| \x1b[1ma\x1b[22m |\n+---+\n"),
    ("a last row of one sequence", "\x1b[1ma\n\x1b[0m", "+---+\n| \x1b[1ma\x1b[22m |\n+---+\n"),
    ("a tab in a window title", "\x1b]0;a\tb\x07x\n", "+---+\n| \x1b]0;a\tb\x07x |\n+---+\n"),
    ("a line feed in a string", "\x1bPa\nb\x1b\\x\n", "+---+\n| \x1bPa\nb\x1b\\x |\n+---+\n"),
    ("the same colour twice", "\x1b[31ma\x1b[31mb\n", "+----+\n| \x1b[31ma\x1b[31mb\x1b[39m |\n+----+\n"),
    ("a colour that ends three rows later", "\x1b[32ma\nb\nc\nd\x1b[0me\n", """\
+----+
| \x1b[32ma\x1b[39m  |
+----+
| \x1b[32mb\x1b[39m  |
+----+
| \x1b[32mc\x1b[39m  |
+----+
| \x1b[32md\x1b[0me |
+----+
"""),
    ("a colour of 256 on one of three numbers", "\x1b[38;5;208;48;2;1;2;3ma\tb\n", """\
+---+---+
| \x1b[38;5;208;48;2;1;2;3ma\x1b[39m\x1b[49m | \x1b[38;5;208m\x1b[48;2;1;2;3mb\x1b[39m\x1b[49m |
+---+---+
"""),
    ("links that BEL and that ESC and a backslash end", "\x1b]8;;http://x\x07a\x1b]8;;\x07\t\x1b]8;;http://y\x1b\\b\x1b]8;;\x1b\\\n", """\
+---+---+
| \x1b]8;;http://x\x07a\x1b]8;;\x07 | \x1b]8;;http://y\x1b\\b\x1b]8;;\x1b\\ |
+---+---+
"""),
    ("a reset without a number", "\x1b[4ma\x1b[mb\n", "+----+\n| \x1b[4ma\x1b[mb |\n+----+\n"),
    ("moves of the cursor", "a\x1b[2Cb\t\x1b[Hc\n", "+----+---+\n| a\x1b[2Cb | \x1b[Hc |\n+----+---+\n"),
    ("U+009B and CR in a colour", "\x1b[31m\x9b1ma\r\n", "+-------+\n| \x1b[31m\x9b1ma\r\x1b[39m |\n+-------+\n"),
    ("wide characters in colours", "\x1b[33m漢\x1b[0m字\tx\n", "+------+---+\n| \x1b[33m漢\x1b[0m字 | x |\n+------+---+\n"),
    ("a joined emoji in a colour", "\x1b[35m👩\u200d💻\x1b[39m\n", "+----+\n| \x1b[35m👩\u200d💻\x1b[39m |\n+----+\n"),
    # A cell is measured as what it shows: a sequence within a sign does not part it.
    ("a sequence within a joined emoji", "👩\x1b[31m\u200d💻\n", "+----+\n| 👩\x1b[31m\u200d💻\x1b[39m |\n+----+\n"),
    ("a mark beside a colour", "\x1b[1me\u0301\x1b[0m\tz\n", "+---+---+\n| \x1b[1me\u0301\x1b[0m | z |\n+---+---+\n"),
    ("a sequence between a letter and its mark", "e\x1b[31m\u0301\x1b[0mx\n", "+----+\n| e\x1b[31m\u0301\x1b[0mx |\n+----+\n"),
    ("a colour in an empty cell", "\x1b[31m\ta\n", "+--+---+\n| \x1b[31m\x1b[39m | \x1b[31ma\x1b[39m |\n+--+---+\n"),
    ("a style over a short row", "\x1b[7ma\tb\nc\n", """\
+---+---+
| \x1b[7ma\x1b[27m | \x1b[7mb\x1b[27m |
+---+---+
| \x1b[7mc\x1b[27m |   |
+---+---+
"""),
    ("the last character there is", "\U0010ffff\n", "+---+\n| \U0010ffff |\n+---+\n"),
]

# Arguments, an input, and the table that they request, written by hand.
ASKED = [
    ("--width 6", "\x1b[31m123456\x1b[0m\n", "+----+\n| \x1b[31m12\x1b[39m |\n| \x1b[31m34\x1b[39m |\n| \x1b[31m56\x1b[0m |\n+----+\n"),
    ("--width=6", "\x1b[31m12\x1b[0m34\n", "+----+\n| \x1b[31m12\x1b[0m |\n| 34 |\n+----+\n"),
    # A character of two columns does not fit in one: U+FFFD is in its place, without its style.
    ("--width 5", "\x1b[31m😳1\x1b[0m\n", "+---+\n| \ufffd |\n| \x1b[31m1\x1b[0m |\n+---+\n"),
    ("--width 6 --truncate", "\x1b[31m123456\x1b[0m\n", "+----+\n| \x1b[31m12\x1b[39m |\n+----+\n"),
    ("--truncate --width 7", "\x1b[31m😳😳\x1b[39m\n", "+-----+\n| \x1b[31m😳\x1b[39m\ufffd |\n+-----+\n"),
    ("--width 8 --keep-words", "111 234 1\n", "+------+\n| 111  |\n| 234  |\n| 1    |\n+------+\n"),
    ("--width 8", "111 234 1\n", "+------+\n| 111  |\n| 234  |\n| 1    |\n+------+\n"),
    ("--width 0", "ab\tc\n", "+--+--+\n|  |  |\n+--+--+\n"),
    ("--width 0 --truncate", "ab\tc\n", "+--+--+\n|  |  |\n+--+--+\n"),
    ("--width 6", "ab\n", "+----+\n| ab |\n+----+\n"),
    ("--width 100", "ab\n", "+----+\n| ab |\n+----+\n"),
    ("--width 4294967295", "ab\n", "+----+\n| ab |\n+----+\n"),
    ("--width 11", "aaaa\tbb\n", "+-----+---+\n| aaa | b |\n| a   | b |\n+-----+---+\n"),
    ("--width 11 --priority none", "aaaa\tbb\n", "+-----+---+\n| aaa | b |\n| a   | b |\n+-----+---+\n"),
    ("--width 11 --priority max", "aaaa\tbb\n", "+----+----+\n| aa | bb |\n| aa |    |\n+----+----+\n"),
    ("--width 11 --priority min", "aaaa\tbb\n", "+------+--+\n| aaaa |  |\n+------+--+\n"),
    ("--width 11 --priority left", "aaaa\tbb\n", "+----+----+\n| aa | bb |\n| aa |    |\n+----+----+\n"),
    ("--width 11 --priority right", "aaaa\tbb\n", "+------+--+\n| aaaa |  |\n+------+--+\n"),
    ("--width 12 --priority max", "aaa\tbbb\n", "+----+-----+\n| aa | bbb |\n| a  |     |\n+----+-----+\n"),
    ("--width 12 --priority min", "aaa\tbbb\n", "+----+-----+\n| aa | bbb |\n| a  |     |\n+----+-----+\n"),
    ("--width 12 --priority right", "aaa\tbbb\n", "+-----+----+\n| aaa | bb |\n|     | b  |\n+-----+----+\n"),
    ("--width 8 --truncate --keep-words", "111 234 1\n", "+------+\n| 111  |\n+------+\n"),
    ("--width 12 --truncate --priority right", "aaa\tbbb\n", "+-----+----+\n| aaa | bb |\n+-----+----+\n"),
    ("--width 11 --keep-words --priority max", "ab cd\te\n", "+-----+---+\n| ab  | e |\n| cd  |   |\n+-----+---+\n"),
    ("--style modern", "a\tb\n1\t2\n", "┌───┬───┐\n│ a │ b │\n├───┼───┤\n│ 1 │ 2 │\n└───┴───┘\n"),
    ("--style extended", "a\tb\n1\t2\n", "╔═══╦═══╗\n║ a ║ b ║\n╠═══╬═══╣\n║ 1 ║ 2 ║\n╚═══╩═══╝\n"),
    ("--style empty", "a\tb\n1\t2\n", " a  b \n 1  2 \n"),
    ("--style ascii", "a\tb\n1\t2\n", "+---+---+\n| a | b |\n+---+---+\n| 1 | 2 |\n+---+---+\n"),
    ("--width 6 --style modern", "1234\n", "┌────┐\n│ 12 │\n│ 34 │\n└────┘\n"),
    ("--width 4 --style empty --truncate", "1234\n", " 12 \n"),
    ("--width 9 --style extended --priority left", "1234\t5\n", "╔═══╦═══╗\n║ 1 ║ 5 ║\n║ 2 ║   ║\n║ 3 ║   ║\n║ 4 ║   ║\n╚═══╩═══╝\n"),
    ("--style modern --streamed", "a\tb\n", "┌───┬───┐\n│ a │ b │\n└───┴───┘\n"),
    # A colour is around each line of each cell of its column that has bytes, and around nothing else.
    ("--color 1=red", "a\tb\n", "+---+---+\n| a | \x1b[31mb\x1b[39m |\n+---+---+\n"),
    ("--color 0=bold,1=underline", "a\tb\n1\n", """\
+---+---+
| \x1b[1ma\x1b[22m | \x1b[4mb\x1b[24m |
+---+---+
| \x1b[1m1\x1b[22m |   |
+---+---+
"""),
    ("--color=0=black,1=green,2=yellow,3=blue,4=magenta,5=cyan,6=white", "a\tb\tc\td\te\tf\tg\n", """\
+---+---+---+---+---+---+---+
| \x1b[30ma\x1b[39m | \x1b[32mb\x1b[39m | \x1b[33mc\x1b[39m | \x1b[34md\x1b[39m | \x1b[35me\x1b[39m | \x1b[36mf\x1b[39m | \x1b[37mg\x1b[39m |
+---+---+---+---+---+---+---+
"""),
    # What the line itself sets and clears comes after the colour.
    ("--color 0=red", "\x1b[1mab\x1b[0mc\n", "+-----+\n| \x1b[31m\x1b[1mab\x1b[0mc\x1b[39m |\n+-----+\n"),
    ("--color 0=red", "\x1b[1mab\n", "+----+\n| \x1b[31m\x1b[1mab\x1b[22m\x1b[39m |\n+----+\n"),
    ("--color 0=red --width 6", "1234\n", "+----+\n| \x1b[31m12\x1b[39m |\n| \x1b[31m34\x1b[39m |\n+----+\n"),
    ("--color 0=red --width 8 --keep-words", "111 234 1\n", "+------+\n| \x1b[31m111 \x1b[39m |\n| \x1b[31m234 \x1b[39m |\n| \x1b[31m1\x1b[39m    |\n+------+\n"),
    # U+FFFD is in the colour, unless the line's own sequence cleared it before.
    ("--color 0=red --width 7 --truncate", "😳😳\n", "+-----+\n| \x1b[31m😳\ufffd\x1b[39m |\n+-----+\n"),
    ("--color 0=green --truncate --width 7", "\x1b[31m😳😳\x1b[39m\n", "+-----+\n| \x1b[32m\x1b[31m😳\x1b[39m\ufffd\x1b[39m |\n+-----+\n"),
    ("--color 0=red --width 5", "😳1\n", "+---+\n| \x1b[31m\ufffd\x1b[39m |\n| \x1b[31m1\x1b[39m |\n+---+\n"),
    # An empty cell, a column that the table has not, a streamed table: nothing is coloured.
    ("--color 0=red", "\ta\n", "+--+---+\n|  | a |\n+--+---+\n"),
    ("--color 7=red,4294967295=bold", "a\tb\n", "+---+---+\n| a | b |\n+---+---+\n"),
    ("--color 0=red", "", ""),
    ("--color 0=red --streamed", "a\tb\n", "+---+---+\n| a | b |\n+---+---+\n"),
    ("--color 1=red --style empty", "a\tb\n", " a  \x1b[31mb\x1b[39m \n"),
]

# Lists of colours that have not the form, or name a column twice or what there is not.
NO_COLORS = ["", ",", "0", "0=", "=red", "0=pink", "0=red,0=bold", "0=red,00=red", "0=red,", "+1=red", "0= red", "4294967296=red"]

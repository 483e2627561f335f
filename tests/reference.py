"""What `basinmug` prints of a text or of cells, written apart from it, slowly and plainly, by its manual page and its definitions.

`printed` and `printed_cells` take what include/basinmug.h requests (`Asked`), and give the bytes and whether the table is
wider than requested; or they raise `Refused`. A text is a `str`; bytes that are not UTF-8 are surrogates in it. Widths are
known of the characters of `WIDTHS` alone: others raise `KeyError`.
"""
import functools
import re
from typing import NamedTuple, Optional

# Statuses of the header.
NOT_UTF8, ESCAPE, QUOTE, NO_COLUMN, OVER_MAX_SIZE = 1, 2, 10, 11, 13
BAD_COLORS, BAD_ALIGN, BAD_WIDTH, BAD_COLUMNS, BAD_CELLS, BAD_HEAD = 39, 46, 45, 47, 49, 50
ASCII, MODERN, EXTENDED, EMPTY, ROUNDED, MARKDOWN = range(6)
HEADER, ALL_RULES, NO_RULES = range(3)
COLORS, ALL_ESCAPES, NO_ESCAPES = range(3)
IN_TURN, NARROWEST, WIDEST, LEFTMOST, RIGHTMOST = range(5)
AUTO = 0


class Asked(NamedTuple):
    """What is requested, by the numbers of the header; nothing where it has a number for none."""

    delimiter: int = AUTO
    no_header: int = 0
    style: int = ROUNDED
    rules: int = HEADER
    escapes: int = COLORS
    truncate: int = 0
    priority: int = WIDEST
    expanded: int = 0
    all_columns: int = 0
    width: Optional[int] = None
    max_rows: Optional[int] = None
    tail: Optional[int] = None
    head: int = 0
    columns: bytes = b""
    align: bytes = b""
    color: bytes = b""


class Refused(Exception):
    """A status, the place that is reported with it, and the name of a column that is missing."""

    def __init__(self, status, line=0, field=0, row=0, column=0, name=""):
        super().__init__(status, line, field, row, column, name)
        self.status, self.line, self.field, self.row, self.column, self.name = status, line, field, row, column, name


# ---- columns of the terminal: Unicode Standard Annex 11, and what joins in it

# Ranges of characters, and the columns of each by itself.
WIDTHS = [
    (0x20, 0x7E, 1), (0xA0, 0xAC, 1), (0xAD, 0xAD, 0), (0xAE, 0x2FF, 1), (0x300, 0x337, 0), (0x391, 0x3C9, 1), (0x410, 0x44F, 1),
    (0x5D0, 0x5DB, 1), (0x5DD, 0x5EA, 1), (0x621, 0x63A, 1), (0x641, 0x64A, 1), (0x64B, 0x655, 0), (0xE01, 0xE30, 1), (0xE31, 0xE31, 0),
    (0x2000, 0x200A, 1), (0x200B, 0x200F, 0), (0x2010, 0x2027, 1), (0x2028, 0x2029, 1), (0x202A, 0x202E, 0), (0x2030, 0x203B, 1),
    (0x2066, 0x2069, 0), (0x20E3, 0x20E3, 0), (0x2400, 0x2426, 1), (0x2500, 0x257F, 1), (0x26A0, 0x26A0, 1), (0x2764, 0x2764, 1),
    (0x3001, 0x3029, 2), (0x3041, 0x3096, 2), (0x30A0, 0x30FF, 2), (0x4E00, 0x9FFF, 2), (0xAC00, 0xD77F, 2), (0xFE0E, 0xFE0F, 0), (0xFEFF, 0xFEFF, 0),
    (0xFF01, 0xFF60, 2), (0xFF61, 0xFF9D, 1), (0xFFFD, 0xFFFD, 1), (0x1F1E6, 0x1F1FF, 1), (0x1F3FB, 0x1F3FF, 2),
]
# Emoji that are wide by themselves. Which characters VARIATION SELECTOR-16 widens, VARIATION SELECTOR-15 narrows, and a skin
# tone joins; the tones; letters of Arabic of which two take one column (UTS 51 and the Unicode character database).
EMOJI = frozenset("\U0001f44d\U0001f467\U0001f469\U0001f4bb\U0001f5fc\U0001f633\U0001f680")
WIDENED = frozenset("0123456789#*\xa9\xae\u26a0\u2764\U0001f44d\U0001f4bb")
NARROWED = frozenset("\U0001f44d\U0001f4bb")
PERSONS = frozenset("\U0001f44d\U0001f467\U0001f469")
TONES = frozenset(map(chr, range(0x1F3FB, 0x1F400)))
ALEFS, LAM = frozenset("\u0622\u0623\u0625\u0627"), "\u0644"
OWN_WIDTHS = {**{chr(code): columns for first, last, columns in WIDTHS for code in range(first, last + 1)}, **dict.fromkeys(EMOJI, 2)}
WIDE_SELECTOR, NARROW_SELECTOR, JOINER, KEYCAP = "\ufe0f", "\ufe0e", "\u200d", "\u20e3"
# What does not part an alef from the lam before it: what takes no column, but what ends a joining.
APART = frozenset("\u200c\u200d\u2066\u2067\u2068\u2069")


def own_width(character):
    """The columns of a character by itself; a control takes one in a text."""
    return 1 if character < " " or "\x7f" <= character < "\xa0" else OWN_WIDTHS[character]


def added(character, after, selector):
    """The columns that a character adds to those of what follows it, and how it begins that: with an `emoji`, a `tone`, a
    `joiner` of an emoji, a `keycap` of one that is joined, an `alef`, or nothing of these. `after` is how that begins which
    follows it and the variation selector that is right after it, if there is one."""
    if selector == WIDE_SELECTOR and character in WIDENED:
        return (0 if after in ("joiner", "keycap") else 2), "emoji"
    if selector == NARROW_SELECTOR and character in NARROWED:
        return 1, ""
    if selector and after != "alef":
        after = ""
    if after == "joiner" and (character in EMOJI or character in TONES or character == KEYCAP):
        return 0, "emoji" if character in EMOJI else "tone" if character in TONES else "keycap"
    if after == "tone" and character in PERSONS:
        return 0, "emoji"
    if after in ("emoji", "tone") and character == JOINER:
        return 0, "joiner"
    own = own_width(character)
    if after == "alef" and (character == LAM or own == 0 and character not in APART):
        return 0, "" if character == LAM else "alef"
    return own, "emoji" if character in EMOJI else "tone" if character in TONES else "alef" if character in ALEFS else ""


@functools.lru_cache(1 << 16)
def joined_width(text):
    """The columns of a line with other characters than ASCII, from its end on."""
    columns, after, selector = 0, "", ""
    for character in reversed(text):
        if character in (WIDE_SELECTOR, NARROW_SELECTOR):
            is_joined = character == WIDE_SELECTOR and not selector and after in ("joiner", "keycap")
            after, selector = after if is_joined or after == "alef" else "", character
        else:
            own, after = added(character, after, selector)
            columns, selector = columns + own, ""
    return columns


def measure(line):
    """The columns of a line without sequences."""
    return len(line) if line.isascii() else joined_width(line)


def cost(character):
    """A character's columns by itself, at least 1."""
    return max(1, own_width(character))


# ---- sequences and styles: ECMA-48

ESC = "\x1b"
# Control sequences; strings that BEL or ST ends, and those that ST ends; ESC with intermediate bytes, and without.
SEQUENCE = re.compile(
    "\x1b(?:\\[[0-?]*[ -/]*[@-~]|\\][^\x07\x1b\x18\x1a]*(?:\x07|\x1b\\\\)|[PX^_][^\x1b\x18\x1a]*\x1b\\\\|[ -/]+[0-~]|[0-OQ-WYZ\\\\`-~])"
)
RENDITION = re.compile("\x1b\\[([0-9;:]*)m")
# Which codes are cleared by which: the code that clears an attribute is its name here.
CLEARED_BY = {
    1: 22, 2: 22, 3: 23, 20: 23, 4: 24, 21: 24, 5: 25, 6: 25, 7: 27, 8: 28, 9: 29, 26: 50, 51: 54, 52: 54, 53: 55, 73: 75, 74: 75, 58: 59,
    **dict.fromkeys(range(11, 20), 10), **dict.fromkeys([*range(30, 39), *range(90, 98)], 39), **dict.fromkeys([*range(40, 49), *range(100, 108)], 49),
    **dict.fromkeys(range(60, 65), 65),
}
COLOR_CODES, COLORS_CLEARED, VALUED = (38, 48, 58), (39, 49, 59), (10, 39, 49, 59)


KEPT_CODES = {0, *CLEARED_BY, *CLEARED_BY.values()} - {8}


def pieces(text):
    """The text in turn with its sequences: text, sequence, text, .., text. An ESC that begins no sequence is in a text."""
    found, at = [], 0
    for sequence in SEQUENCE.finditer(text):
        found += text[at : sequence.start()], sequence[0]
        at = sequence.end()
    return [*found, text[at:]]


def strip(text):
    """What a text without a broken ESC shows."""
    return SEQUENCE.sub("", text) if ESC in text else text


def numbers_of(parameters):
    """The numbers of parameters, nothing where one has a colon or passes 255."""
    digits = ("0" + it for it in parameters.split(";"))
    return [int(it) if ":" not in it and int(it) <= 255 else None for it in digits]


@functools.lru_cache(1 << 12)
def settings_of(sequence):
    """Codes and the parameters that set them, in turn; nothing for a number that has no meaning, and nothing after a colour that
    is not whole. None of a sequence that is no SELECT GRAPHIC RENDITION."""
    found = RENDITION.fullmatch(sequence)
    if not found:
        return None
    numbers, settings, at = numbers_of(found[1]), [], 0
    while at < len(numbers):
        code, at = numbers[at], at + 1
        if code not in COLOR_CODES:
            settings.append((code, str(code)))
            continue
        length = {5: 2, 2: 4}.get(numbers[at] if at < len(numbers) else None, 1)
        form, at = numbers[at : at + length], at + length
        if length == 1 or len(form) < length or None in form:
            return [*settings, (None, "")]
        settings.append((code, ";".join(map(str, [code, *form]))))
    return settings


def styled(style, sequence):
    """The style after a sequence: what each attribute that is set was set by."""
    style = dict(style)
    for code, parameters in settings_of(sequence) or ():
        if code == 0:
            style = {}
        elif code in CLEARED_BY:
            cleared = CLEARED_BY[code]
            style[cleared if cleared in VALUED else code] = code, parameters
        else:
            style = {name: it for name, it in style.items() if CLEARED_BY[it[0]] != code}
    return style


def opened(style):
    """The sequences that set a style, in the order of their codes; that of a colour is 38, 48 or 58."""
    in_order = sorted(style.items(), key=lambda it: it[0] - 1 if it[0] in COLORS_CLEARED else it[1][0])
    return "".join(f"{ESC}[{parameters}m" for _, (_, parameters) in in_order)


def closed(style):
    """The sequences that clear it."""
    return "".join(f"{ESC}[{code}m" for code in sorted({CLEARED_BY[code] for code, _ in style.values()}))


class Placed:
    """A text as what it shows and its sequences, each with the number of shown characters before it."""

    def __init__(self, text):
        parts = pieces(text)
        self.shown, self.sequences, self.styles, place = "".join(parts[::2]), [], [{}], 0
        for before, sequence in zip(parts[::2], parts[1::2]):
            place += len(before)
            self.sequences.append((place, sequence))
            self.styles.append(styled(self.styles[-1], sequence))

    def count(self, is_before):
        """How many sequences are at a place of this kind; they are the first ones."""
        return sum(1 for place, _ in self.sequences if is_before(place))

    def between(self, start, end, first, last):
        """The characters from one to another, with some of the sequences among them."""
        text, at = [], start
        for place, sequence in self.sequences[first:last]:
            place = max(at, min(place, end))
            text += self.shown[at:place], sequence
            at = place
        return "".join([*text, self.shown[at:end]])

    def part(self, start, end, first, last, opens):
        """The same in the style that is known there, and closed."""
        return (opened(self.styles[first]) if opens else "") + self.between(start, end, first, last) + closed(self.styles[last])

    def lines(self):
        """The parts between line feeds. A sequence beside one belongs to the side where it is."""
        found, start = [], 0
        for line in self.shown.split("\n"):
            end = start + len(line)
            first, last = self.count(lambda place, start=start: place < start), self.count(lambda place, end=end: place <= end)
            found.append(self.part(start, end, first, last, start > 0))
            start = end + 1
        return found

    def divided(self, places):
        """The parts between places, each with the sequences that come after its start."""
        bounds, found = [0, *places, len(self.shown)], []
        for start, end in zip(bounds, bounds[1:]):
            first = self.count(lambda place, start=start: place <= start) if start else 0
            last = self.count(lambda place, end=end: place <= end) if end < len(self.shown) else len(self.sequences)
            found.append(self.part(start, end, first, last, start > 0))
        return found

    def front(self, end):
        """The characters up to one of them, closed."""
        return self.part(0, end, 0, self.count(lambda place: place <= end), False)


def lines_of(text):
    """The lines of a text, each of which opens and closes its own styles."""
    return Placed(text).lines() if ESC in text else text.split("\n")


def line_width(text):
    """The columns of what a line shows."""
    return measure(strip(text))


@functools.lru_cache(1 << 14)
def text_width(text):
    """The columns of the widest line of a text."""
    return max(map(measure, strip(text).split("\n")))


# What is white space (Unicode, White_Space).
WHITE = "\t\n\x0b\x0c\r \x85\xa0\u1680\u2000\u2001\u2002\u2003\u2004\u2005\u2006\u2007\u2008\u2009\u200a\u2028\u2029\u202f\u205f\u3000"


def trimmed(line):
    """A line without the white space at its ends, and with all its sequences."""
    if ESC not in line:
        return line.strip(WHITE)
    placed = Placed(line)
    start, end = len(placed.shown) - len(placed.shown.lstrip(WHITE)), len(placed.shown.rstrip(WHITE))
    return placed.between(min(start, end), end, 0, len(placed.sequences))


# ---- the text: what separates its fields, its records, and how a field is shown


# A first line that names the character between fields; what is in quotes, with the quote that closes it.
NAMED = re.compile("sep=([\x00-\x09\x0b\x0c\x0e-!#-\x7f])(?=[\r\n]|\\Z)")
# (a quote that another follows closes nothing)
QUOTED = re.compile('"(?:[^"]|"")*"(?!")')


def delimiter_of(text):
    """The character between fields, and what is after a line that names it: by the first line of a text without its mark."""
    named = NAMED.match(text)
    if named:
        return named[1], text[5:]
    outside = outside_quotes(text, True)
    if outside is None:
        outside = outside_quotes(text, False)
    in_sequences = {at for it in RENDITION.finditer(text) for at in range(it.start(), it.end())}
    found = [text[at] for at in outside if at not in in_sequences and not (text[at] == "," and is_in_number(text, at))]
    if "\t" in found:
        return "\t", text
    return max(",;|", key=found.count), text


def is_in_number(text, at):
    """Whether a comma is between two digits."""
    return at > 0 and text[at - 1] in "0123456789" and text[at + 1 : at + 2] in tuple("0123456789")


def outside_quotes(text, quotes):
    """The places of tabs, commas, semicolons and bars of the first line that are not in quotes, where these count; nothing
    where a quote is never closed."""
    found, opens, at = [], True, len(text) - len(text.lstrip("\r\n"))
    while at < len(text) and text[at] not in "\r\n":
        if quotes and opens and text[at] == '"':
            quoted = QUOTED.match(text, at)
            if not quoted:
                return None
            opens, at = False, quoted.end()
            continue
        opens = text[at] in "\t,;|"
        if opens:
            found.append(at)
        at += 1
    return found


LINE_ENDS = re.compile("[\r\n]*")


@functools.lru_cache(None)
def field_pattern(delimiter):
    """A field: what is in quotes at its start, if it has them, the quote that closes it, and what follows."""
    return re.compile(f'(?:"((?:[^"]|"")*)("?))?([^{re.escape(delimiter)}\r\n]*)')


class Fields:
    """The records of a text, each a list of fields; where each field begins in it, and where the last record ends; whether the
    last field is in quotes that no quote closes."""

    def __init__(self, text, delimiter, most=None):
        """At most so many records."""
        self.text, self.records, self.starts, self.is_open, self.end, at = text, [], [], False, 0, 0
        pattern = field_pattern(delimiter)
        while most is None or len(self.records) < most:
            at = LINE_ENDS.match(text, at).end()
            if at == len(text):
                break
            record, starts = [], []
            while True:
                found = pattern.match(text, at)
                self.is_open = found[1] is not None and not found[2]
                record.append((found[1] or "").replace('""', '"') + found[3])
                starts.append(at)
                at = found.end()
                if text[at : at + 1] != delimiter:
                    break
                at += 1
            self.records.append(record)
            self.starts.append(starts)
            self.end = at
        self.read = at

    def line(self, at):
        """The line of a place, from 1."""
        return self.text.count("\n", 0, at) + 1


@functools.lru_cache(1 << 14)
def cleaned_piece(text, escapes):
    """A text outside sequences as it is shown."""
    if text.isascii() and text.isprintable():
        return text
    return "".join(shown_character(it, escapes) for it in text.replace("\r\n", "\n"))


@functools.lru_cache(1 << 12)
def shown_character(character, escapes):
    """A character as it is shown."""
    if character == "\n":
        return character
    if character == "\t":
        return "    "
    if character < " ":
        return chr(0x2400 + ord(character))
    if character == "\x7f":
        return "\u2421"
    is_turning = "\u202a" <= character <= "\u202e" or "\u2066" <= character <= "\u2069"
    return "\ufffd" if character < "\xa0" and character > "\x7f" or is_turning and escapes != ALL_ESCAPES else character


@functools.lru_cache(1 << 12)
def is_kept(sequence):
    """Whether a sequence does nothing but set and clear styles that a line can close, and conceals nothing."""
    settings = settings_of(sequence)
    return settings is not None and all(code in KEPT_CODES for code, _ in settings)


def cleaned(field, escapes):
    """A field as a cell shows it."""
    if ESC not in field:
        return cleaned_piece(field, escapes)
    text = []
    for at, piece in enumerate(pieces(field)):
        if at % 2 == 0:
            text.append(cleaned_piece(piece, escapes))
        elif escapes == ALL_ESCAPES or escapes == COLORS and is_kept(piece):
            text.append(piece)
        elif escapes == NO_ESCAPES or piece not in (f"{ESC}[K", f"{ESC}[0K", f"{ESC}(B"):
            text.append(cleaned_piece(piece, escapes))
    return "".join(text)


def broken(field):
    """The place of the first ESC that begins no sequence, or -1."""
    at = 0
    for number, piece in enumerate(pieces(field)):
        if number % 2 == 0 and ESC in piece:
            return at + piece.index(ESC)
        at += len(piece)
    return -1


def first_surrogate(text):
    """The place of the first byte that is in no character, or -1."""
    found = re.search("[\ud800-\udfff]", text)
    return found.start() if found else -1


def rows_of(asked, text):
    """The records of a text, each field as it is shown."""
    text = text.decode("utf-8", "surrogateescape").removeprefix("\ufeff")
    delimiter, after = (chr(asked.delimiter), text) if asked.delimiter != AUTO else delimiter_of(text)
    start = len(text) - len(after)
    most = asked.head + (not asked.no_header) if asked.head else None
    read = Fields(after, delimiter, most)
    bad = first_surrogate(after[: read.read])
    if bad >= 0:
        front = Fields(after[:bad], delimiter)
        raise Refused(NOT_UTF8, line=read.line(bad), field=len(front.records[-1]) if front.records and front.end == bad else 1)
    if read.is_open:
        raise Refused(QUOTE, line=read.line(read.starts[-1][-1]))
    if asked.escapes == ALL_ESCAPES and ESC in text:
        for record, starts in zip(read.records, read.starts):
            for number, (field, at) in enumerate(zip(record, starts)):
                if broken(field) >= 0:
                    raise Refused(ESCAPE, line=read.line(at) + field.count("\n", 0, broken(field)), field=number + 1)
    return [[cleaned(field, asked.escapes) for field in record] for record in read.records]


# ---- numbers, and what columns are called

NUMBER = re.compile("[+-]?(?:(?:[0-9]+|[0-9]{1,3}(?:,[0-9]{3})+)(?:\\.[0-9]*)?|\\.[0-9]+)(?:[eE][+-]?[0-9]+)?%?")


def cell(row, column):
    """The text of a row in a column; a row that is shorter has an empty one."""
    return row[column] if column < len(row) else ""


def is_numeric(records, column):
    """Whether each text of a column that shows anything is a number, and there is one."""
    shown = [it for it in (strip(cell(row, column)).strip(WHITE) for row in records) if it]
    return bool(shown) and all(map(NUMBER.fullmatch, shown))


DIGITS = re.compile("[0-9]+")


def number_named(text):
    """The number that digits name, up to 4294967295, or nothing."""
    return int(text) if DIGITS.fullmatch(text) and int(text) < 2**32 else None


def column_named(text):
    """A number or a header; nothing where it is neither."""
    return number_named(text) if text == "" or DIGITS.fullmatch(text) else text


def listed(given, names, status):
    """The items of a list, each a column and what a name means; one of another form is refused."""
    found = []
    for item in items_of(given, status):
        column, equals, name = item.partition("=")
        column = column_named(column)
        if not equals or name not in names or column is None or column in (it for it, _ in found):
            raise Refused(status)
        found.append((column, names[name]))
    return found


def chosen(given):
    """The columns that a list chooses, each a column or two numbers."""
    found = []
    for item in items_of(given, BAD_COLUMNS):
        first, _, last = item.partition("-")
        ends = number_named(first), number_named(last)
        choice = ends if None not in ends else column_named(item)
        if choice is None or choice == ends and ends[0] > ends[1]:
            raise Refused(BAD_COLUMNS)
        found.append(choice)
    return found


def items_of(given, status):
    """The parts of a list at its commas; an empty one has none."""
    try:
        return given.decode().split(",") if given else []
    except UnicodeDecodeError:
        raise Refused(status) from None


ALIGNMENTS = {"left": 0, "center": 1, "right": 2}
COLOR_NAMES = {
    **{name: (f"{ESC}[{30 + at}m", f"{ESC}[39m") for at, name in enumerate("black red green yellow blue magenta cyan white".split())},
    "bold": (f"{ESC}[1m", f"{ESC}[22m"), "underline": (f"{ESC}[4m", f"{ESC}[24m"),
}


class Names:
    """The header's texts."""

    def __init__(self, header):
        self.texts = [strip(it) for it in header]

    def number(self, column):
        """The number of a column, or nothing where none is called so."""
        return column if isinstance(column, int) else self.texts.index(column) if column in self.texts else None

    def values(self, given):
        """What is given for columns, by their numbers; the last of several decides."""
        for column, _ in given:
            self.known(column)
        return {self.number(column): value for column, value in given}

    def known(self, column):
        """Refuses a name that no column has."""
        if self.number(column) is None:
            raise Refused(NO_COLUMN, name=column)

    def chosen(self, choices, count):
        """The numbers of the columns that are chosen of so many."""
        found = []
        for choice in choices:
            if not isinstance(choice, tuple):
                self.known(choice)
            first, last = choice if isinstance(choice, tuple) else (self.number(choice),) * 2
            if last >= count:
                raise Refused(NO_COLUMN, name=str(last))
            found += range(first, last + 1)
        return found


# ---- a text in so many columns

ELLIPSIS, REPLACEMENT = "\u2026", "\ufffd"


def shortened(line, columns):
    """A line that is wider, cut, with an ellipsis as its last column."""
    if columns == 0:
        return ""
    shown, taken, end = strip(line), 0, 0
    while end < len(shown) and taken + cost(shown[end]) <= columns - 1:
        taken, end = taken + cost(shown[end]), end + 1
    front = Placed(line).front(end) if ESC in line else line[:end]
    return front + REPLACEMENT * (columns - 1 - taken if end < len(shown) else 0) + ELLIPSIS


def units_of(shown, columns):
    """What is not divided, as ends in the line and columns: spaces, words, and the characters of words that are too wide."""
    at = 0
    for word in re.findall(" |[^ ]+", shown):
        if word == " " or measure(word) <= columns:
            at += len(word)
            yield at, 1 if word == " " else measure(word)
        else:
            for character in word:
                at += 1
                yield at, cost(character)


def runs_of(units, columns):
    """The ends of runs, each the longest that fits, and the unit in it that is too wide, by its end and what is left for it."""
    runs, taken, wide, end = [], 0, None, 0
    for at, width in units:
        is_wide = width > columns
        if end and (taken >= columns if is_wide else taken + width > columns) or wide and width:
            runs.append((end, wide))
            taken, wide = 0, None
        if is_wide:
            wide, taken = (at, columns - taken), columns
        else:
            taken += width
        end = at
    return [*runs, (end, wide)]


def wrapped(line, columns):
    """A line between words; what shows only spaces is left out."""
    if columns == 0:
        return ""
    shown = strip(line)
    runs = runs_of(units_of(shown, columns), columns)
    places = {place for end, wide in runs for place in (end, *((wide[0] - 1, wide[0]) if wide else ()))}
    places = sorted(it for it in places if 0 < it < len(shown))
    parts = dict(zip([0, *places], Placed(line).divided(places) if ESC in line else map(lambda a, b: line[a:b], [0, *places], [*places, len(line)])))
    lines, start = [], 0
    for end, wide in runs:
        within = [it for it in sorted(parts) if start <= it < end or it == start]
        lines.append("".join(REPLACEMENT * wide[1] if wide and it == wide[0] - 1 else parts[it] for it in within))
        start = end
    return "\n".join(it for it in lines if strip(it).strip(" "))


def fitted(text, columns, truncate):
    """A text in so many columns; one that fits stays."""
    if text_width(text) <= columns:
        return text
    return "\n".join((shortened(it, columns) if line_width(it) > columns else it) if truncate else wrapped(it, columns) for it in lines_of(text))


# ---- widths


def take(order, widths, floors, excess):
    """Widths of which each gives all that it has above its floor before the next gives any."""
    widths = list(widths)
    for column in order:
        given = min(excess, widths[column] - floors[column])
        widths[column] -= given
        excess -= given
    return widths


def shrunk(priority, floors, excess, widths):
    """Widths that give so much, none below its floor, as the priority says."""
    floors = [min(it) for it in zip(floors, widths)]
    columns = range(len(widths))
    if priority == LEFTMOST:
        return take(columns, widths, floors, excess)
    if priority == RIGHTMOST:
        return take(reversed(columns), widths, floors, excess)
    if priority == NARROWEST:
        return take(sorted(columns, key=lambda it: (widths[it], -it)), widths, floors, excess)
    widths, turn = list(widths), 0
    for _ in range(min(excess, sum(widths) - sum(floors))):
        able = [it for it in columns if widths[it] > floors[it]]
        if priority == WIDEST:
            column = max(able, key=lambda it: (widths[it], it))
        else:
            column = min(able, key=lambda it: (it < turn, it))
            turn = column + 1
        widths[column] -= 1
    return widths


def rooms_of(asked, needs, excess, widths):
    """The widths of columns that have to give so much: those without numbers first."""

    def can_give(kept):
        return excess + sum(map(min, kept, widths)) <= sum(widths)

    kept = [width for _, width in needs]
    if not can_give(kept):
        two, one = [4] * len(widths), [3] * len(widths)
        kept = one if can_give(one) and not can_give(two) else two
    kept = list(map(min, kept, widths))
    first = shrunk(asked.priority, [width if numeric else it for (numeric, _), it, width in zip(needs, kept, widths)], excess, widths)
    return shrunk(asked.priority, kept, excess - (sum(widths) - sum(first)), first)


def need_of(asked, rows, column):
    """Whether a column is of numbers, and how many columns it needs, with a padding at each side."""
    numeric = is_numeric(rows[0 if asked.no_header else 1 :], column)
    if asked.width is None:
        return numeric, 0
    widest = min(8, max((text_width(cell(row, column)) for row in rows), default=0))
    if numeric:
        numbers = (strip(cell(row, column)).strip("\t\n\x0c\r ") for row in rows[0 if asked.no_header else 1 :])
        widest = min(24, max(widest, *map(text_width, numbers), 0))
    return numeric, widest + 2


def columns_that_fit(asked, rows, columns):
    """Of some columns those that are shown, and nothing in place of those between them that are left out."""
    lined = int(asked.style != EMPTY)
    costs, mark = [need_of(asked, rows, it)[1] + lined for it in columns], 3 + lined
    for count in range(len(columns), 0, -1):
        first, last = (count + 1) // 2, count // 2
        shown = costs[:first] + costs[len(costs) - last :]
        if lined + sum(shown) + (mark if count < len(columns) else 0) <= asked.width:
            return [*columns[:first], None, *columns[len(columns) - last :]] if count < len(columns) else columns
    beside = [None] if len(columns) > 1 and lined + mark + mark <= asked.width else []
    return [*columns[:1], *beside]


# ---- tables

# The lines above the first row, between two, and below the last: the left end, the line, a crossing and the right end.
GLYPHS = {
    ASCII: ("+-++", "+-++", "+-++", "|"), MODERN: ("┌─┬┐", "├─┼┤", "└─┴┘", "│"), EXTENDED: ("╔═╦╗", "╠═╬╣", "╚═╩╝", "║"),
    EMPTY: None, ROUNDED: ("╭─┬╮", "├─┼┤", "╰─┴╯", "│"), MARKDOWN: (None, None, None, "|"),
}


class Grid:
    """Rows of texts in columns, each with an alignment, a colour or none, and lines that are trimmed or not."""

    def __init__(self, style, rows, numeric, aligned, colored):
        self.style, self.rows, self.count = style, rows, max(map(len, rows), default=0)
        self.aligned = [aligned.get(it, 2 if it < len(numeric) and numeric[it] else 0) for it in range(self.count)]
        self.colored = [colored.get(it) for it in range(self.count)]
        self.trimmed = [False] * self.count
        self.widths = self.measured()

    def measured(self):
        return [2 + max(text_width(cell(row, column)) for row in self.rows) for column in range(self.count)]

    def total(self):
        """The columns of a line."""
        return sum(self.widths) + (self.count + 1 if self.count and self.style != EMPTY else 0)

    def narrow(self, asked, needs):
        """Fits the texts into the requested width."""
        rooms = rooms_of(asked, needs, self.total() - asked.width, self.widths)
        is_narrowed = [room < width for room, width in zip(rooms, self.widths)]
        for at, row in enumerate(self.rows):
            row = [*row, *[""] * (self.count - len(row))]
            self.rows[at] = [fitted(it, max(0, room - 2), asked.truncate) if less else it for it, room, less in zip(row, rooms, is_narrowed)]
        self.trimmed = [less and not asked.truncate for less in is_narrowed]
        self.widths = self.measured()

    def block(self, text, column):
        """The lines of a cell, as wide as its column."""
        lines = lines_of(text)
        if self.trimmed[column]:
            lines = list(map(trimmed, lines))
        widths, room = list(map(line_width, lines)), self.widths[column] - 2
        block = []
        for line, width in zip(lines, widths):
            free = room - (width if self.trimmed[column] else max(widths))
            before = free * self.aligned[column] // 2
            if line and self.colored[column]:
                line = line.join(self.colored[column])
            block.append(" " * (1 + before) + line + " " * (room - before - width + 1))
        return block

    def row(self, row):
        """The lines of a row."""
        blocks = [self.block(cell(row, column), column) for column in range(self.count)]
        glyph = GLYPHS[self.style][3] if GLYPHS[self.style] else ""
        blank = [" " * width for width in self.widths]
        for at in range(max(map(len, blocks), default=0)):
            yield glyph + glyph.join(it[at] if at < len(it) else blank[column] for column, it in enumerate(blocks)) + glyph

    def rule(self, which):
        """A line above, between or below rows."""
        if GLYPHS[self.style] and self.count:
            left, line, cross, right = GLYPHS[self.style][which]
            yield left + cross.join(line * width for width in self.widths) + right

    def marks(self):
        """The delimiter row of a document."""
        if self.count:
            left, right = (":", ":", ""), ("", ":", ":")
            sides = [(left[it], right[it]) for it in self.aligned]
            yield "|" + "".join(a + "-" * max(1, width - len(a + b)) + b + "|" for (a, b), width in zip(sides, self.widths))

    def lines(self, asked):
        """All lines that are requested."""
        if self.style == MARKDOWN:
            for at, row in enumerate(self.rows):
                yield from self.row(row)
                if at == 0:
                    yield from self.marks()
            return
        for at, row in enumerate(self.rows):
            if at == 0:
                yield from self.rule(0)
            elif asked.rules == ALL_RULES or asked.rules == HEADER and at == 1 and not asked.no_header:
                yield from self.rule(1)
            yield from self.row(row)
        if self.rows:
            yield from self.rule(2)


def in_markdown(text):
    """A text of a document's cell; its sequences stay."""
    parts = pieces(text) if ESC in text else [text]
    return "".join(re.sub("[|\\\\]", "\\\\\\g<0>", it).replace("\n", "<br>") if at % 2 == 0 else it for at, it in enumerate(parts))


def left_out_line(asked, noun, count):
    """The line that counts what is left out."""
    if count == 0:
        return []
    before, after = ("", " left out") if None not in (asked.max_rows, asked.tail) else ("more " if asked.tail is None else "earlier ", "")
    return [f"({count} {before}{noun}{'s' if count > 1 else ''}{after})"]


def kept_rows(asked, rows):
    """The rows that are shown, how many of them come before those that are left out, and how many these are."""
    header = 0 if asked.no_header else 1
    if asked.max_rows is None and asked.tail is None:
        return rows, len(rows), 0
    first = header + (asked.max_rows or 0)
    last = len(rows) if asked.tail is None else max(first, len(rows) - asked.tail)
    left_out = max(0, last - first) if asked.tail is not None else max(0, len(rows) - first)
    return rows[:first] + rows[first + left_out :], first, left_out


def table_lines(asked, rows, first, left_out, columns, values):
    """The lines of a table of rows that are shown, and whether it is wider than requested."""
    count, below, aligned, colored = max(map(len, rows), default=0), [], *values
    wanted = list(range(count)) if columns is None else columns
    shown = columns_that_fit(asked, rows, wanted) if asked.width is not None and not asked.all_columns else wanted
    if shown != list(range(count)) or columns is not None:
        rows = [[ELLIPSIS if it is None else cell(row, it) for it in shown] for row in rows]
        aligned, colored = ({at: given[it] for at, it in enumerate(shown) if it in given} for given in (aligned, colored))
        some = sum(it is not None for it in shown)
        if some < len(wanted):
            below = [f"({some} of {len(wanted)} columns)"]
    count = max(map(len, rows), default=0)
    needs = [need_of(asked, rows, column) for column in range(count)]
    rows = list(rows)
    if left_out and asked.max_rows is not None and asked.tail is not None:
        rows.insert(first, [ELLIPSIS] * count)
    if asked.style == MARKDOWN:
        rows = [list(map(in_markdown, row)) for row in rows]
        rows = [[], *rows] if asked.no_header and rows else rows
        below = [""] if left_out else []
    grid = Grid(asked.style, rows, [numeric for numeric, _ in needs], aligned, colored)
    if asked.width is not None and grid.total() > asked.width:
        grid.narrow(asked, needs)
    lines = [*grid.lines(asked), *below, *left_out_line(asked, "row", left_out)]
    return lines, asked.width is not None and grid.total() > asked.width


# ---- records one below the other


def record_lines(asked, rows, first, left_out):
    """The lines of records."""
    header, records = ([], rows) if asked.no_header else (rows[:1], rows[1:])
    count = max(map(len, rows), default=0)
    names = [str(it) for it in range(count)] if asked.no_header else [cell(row, it) for row in header for it in range(count)]
    is_between = asked.max_rows is not None and asked.tail is not None
    first = min(first - len(header), len(records)) if is_between or asked.tail is None else 0
    numbers = [at if at < first or not asked.tail else at + left_out for at in range(len(records))]
    of_names = max(map(text_width, names), default=0)
    of_values = max((text_width(it) for record in records for it in record), default=0)
    head = len(f"-[ RECORD {numbers[-1] if numbers else 0} ]")
    if asked.width is not None:
        of_names = min(of_names, asked.width // 2)
    rule = min(max(of_names + 3 + of_values, head + 1), 80 if asked.width is None else asked.width)
    if asked.width is not None:
        of_values = max(1, asked.width - of_names - 3)
    named = [[it + " " * (of_names - line_width(it)) for it in lines_of(fitted(name, of_names, True))] for name in names]
    for number, record in zip(numbers, records):
        if is_between and left_out and number == first + left_out:
            yield ELLIPSIS
        line = f"-[ RECORD {number} ]"
        line += "-" * (of_names - len(line)) + "-+" if len(line) <= of_names else ""
        yield (line + "-" * rule)[:rule]
        for at, name in enumerate(named):
            values = lines_of(fitted(cell(record, at), of_values, asked.truncate))
            for number_of_line in range(max(len(name), len(values))):
                yield cell(name, number_of_line) or " " * of_names, cell(values, number_of_line)
    if is_between and left_out and len(records) <= first:
        yield ELLIPSIS
    yield from left_out_line(asked, "record", left_out)


# ---- all of it


def print_rows(asked, lists, rows):
    """What is printed of rows that are read, and whether it is wider than requested."""
    choices, aligned, colored = lists
    names = Names(rows[0] if rows and not asked.no_header else [])
    columns = names.chosen(choices, max(map(len, rows), default=0)) if choices else None
    values = names.values(aligned), names.values(colored)
    shown, first, left_out = kept_rows(asked, rows)
    if not asked.expanded:
        lines, wider = table_lines(asked, shown, first, left_out, columns, values)
    else:
        shown = shown if columns is None else [[cell(row, it) for it in columns] for row in shown]
        lines, wider = [it if isinstance(it, str) else " | ".join(it) for it in record_lines(asked, shown, first, left_out)], False
    return "".join(line + "\n" for line in lines).encode(), wider


def checked(asked):
    """The lists, after the options."""
    if asked.style == MARKDOWN and asked.width is not None:
        raise Refused(BAD_WIDTH)
    if asked.head and asked.tail is not None:
        raise Refused(BAD_HEAD)
    return chosen(asked.columns), listed(asked.align, ALIGNMENTS, BAD_ALIGN), listed(asked.color, COLOR_NAMES, BAD_COLORS)


def printed(asked, text):
    """What is printed of a delimited text, and whether it is wider than requested."""
    lists = checked(asked)
    return print_rows(asked, lists, rows_of(asked, text))


def printed_cells(asked, records):
    """What is printed of records of bytes, and whether it is wider than requested."""
    lists, rows = checked(asked), []
    for at, record in enumerate(records[: asked.head + (not asked.no_header)] if asked.head else records):
        rows.append([])
        for column, field in enumerate(record):
            text = field.decode("utf-8", "surrogateescape")
            if first_surrogate(text) >= 0:
                raise Refused(NOT_UTF8, row=at, column=column)
            if asked.escapes == ALL_ESCAPES and broken(text) >= 0:
                raise Refused(ESCAPE, row=at, column=column)
            rows[-1].append(cleaned(text, asked.escapes))
    return print_rows(asked, lists, rows)

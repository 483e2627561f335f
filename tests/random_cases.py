"""Random cases of `basinmug_print` and `basinmug_print_cells`, and whether the library and reference.py agree on them.

A case is made from its number alone, so that one that fails can be made again. Its text has characters of reference.py
alone. Besides being compared, what the library prints is held to what the first page promises of it, by `broken_promise`.
"""
import ctypes
import random
import re

import reference
from reference import ALL_ESCAPES, COLOR_NAMES, COLORS, ESC, MARKDOWN, OVER_MAX_SIZE, Asked, Refused, measure, strip
from test_clib import printing

# What cells are made of, by kinds of texts: a text has one kind, or some.
WORDS = ["a", "b", "bc", "def", "word", "a-b", "longer", "x" * 9, "y" * 17, "one two", "  ", " ", ".", "|", "\\", "<br>", "=", "sep=;"]
NUMBERS = ["1", "-2", "3.5", "1,000", "1,23", "12345678", "0x1F", "1e9", ".5", "7.", "99%", "+4", "123456789012345678901234567", "2026-11-27", "NaN", " 8 ", "\u00a09"]
WIDE = ["漢", "漢字", "東京都", "かな", "ｶﾅ", "Ａ", "한국", "é", "e\u0301", "\u0301", "Ω", "Я", "😳", "🗼", "🚀", "…", "—", "\ufffd", "␛", "│", "ไ\u0e31", "、"]
JOINED = ["👩\u200d💻", "👩\u200d👩\u200d👧", "👍🏽", "👍", "🏽", "💻", "⚠\ufe0f", "⚠", "❤\ufe0f", "1\ufe0f\u20e3", "#\ufe0f", "\ufe0f", "\ufe0e", "👍\ufe0e", "\u200d", "\u200b", "\u00ad", "\ufeff", "لا", "ل", "ا", "\u064b", "\u20e3", "💻\ufe0f"]
FLAGS = ["🇯🇵", "🇨🇭", "🇩", "ab", "漢"]
TURNING = ["\u202e", "\u202a", "\u2066", "\u2069", "א", "ש", "\u200e", "\u200f"]
CONTROLS = ["\x00", "\x07", "\x08", "\x0b", "\x0c", "\x1a", "\x7f", "\x80", "\x85", "\x9b", "\x9c", "\t", "\r", "\r\n", "\n", "\r\r\n", "\u2028"]
STYLES = [f"{ESC}[{it}m" for it in ("31", "1", "0", "", "39", "22", "4", "38;5;9", "48;2;1;2;3", "1;31", "0;1", "58;5;2", "91", "107", "11", "10", "21", "53", "73", "7;27", "03", ";1", "38;5;1;1", "20", "26;50", "64")]
ODD = [
    ESC, f"{ESC}[", f"{ESC}[8m", f"{ESC}[66m", f"{ESC}[4:3m", f"{ESC}[38;5m", f"{ESC}[38;5;256m", f"{ESC}[1;38;2;1;2m", f"{ESC}[K", f"{ESC}[0K", f"{ESC}[2K", f"{ESC}(B", f"{ESC}(0",
    f"{ESC}]0;t\x07", f"{ESC}]8;;http://x{ESC}\\", f"{ESC}]0;\n\x07", f"{ESC}P q{ESC}\\", f"{ESC}Pa\x18", f"{ESC}c", f"{ESC}7", f"{ESC}[1A", f"{ESC}[?25l", f"{ESC}{ESC}[31m", f"{ESC}#8", f"{ESC}é", f"{ESC}[1 q", f"{ESC}[31",
    f"{ESC}]\t\x07", f"{ESC}]|\\\x07",
]
KINDS = [WORDS, WORDS, NUMBERS, NUMBERS, WIDE, JOINED, FLAGS, TURNING, CONTROLS, STYLES, STYLES, ODD]
DELIMITERS = [",", ",", ";", "\t", "|", " ", ":", "a", "\x1b", "\x01", "^", "\x7f", "1"]
BYTES = [b"\xff", b"\xc3", b"\xe2\x82", b"\xed\xa0\x80", b"\xf4\x90\x80\x80", b"\x80", b"\xc0\xaf"]


def some_text(chance, atoms):
    """A cell."""
    if chance.random() < 0.1:
        return ""
    if chance.random() < 0.3:
        return chance.choice(atoms)
    return "".join(chance.choice(atoms) for _ in range(chance.randrange(1, 7)))


def some_atoms(chance):
    """What the cells of a text are made of."""
    atoms = [it for kind in chance.sample(KINDS, chance.choice((1, 2, 2, 3))) for it in kind]
    # A flag beside a joiner is in no class of characters of the reference.
    return [it for it in atoms if "\u200d" not in it] if any(it in atoms for it in FLAGS[:3]) else atoms


def some_records(chance):
    """Records of cells."""
    atoms, numbers = some_atoms(chance), chance.random() < 0.4
    columns, rows = chance.choice((1, 1, 2, 2, 3, 3, 4, 5, 9)), chance.choice((0, 1, 2, 2, 3, 3, 4, 5, 6, 14))
    records = []
    for _ in range(rows):
        count = columns if chance.random() < 0.7 else chance.randrange(1, columns + 2)
        records.append([chance.choice(NUMBERS) if numbers and it % 2 and chance.random() < 0.9 else some_text(chance, atoms) for it in range(count)])
    return records


def in_quotes(chance, field, delimiter):
    """A field as it is written; mostly in quotes where it needs them."""
    needs = any(it in field for it in ('"', "\n", "\r", delimiter)) or field == ""
    if chance.random() < (0.97 if needs and field else 0.2):
        return '"' + field.replace('"', '""') + '"' + ("z" if chance.random() < 0.02 else "")
    return field + ('"' if chance.random() < 0.02 else "")


def some_delimited(chance, records):
    """Records as a delimited text, and its delimiter."""
    delimiter = chance.choice(DELIMITERS)
    end = chance.choice(("\n", "\n", "\n", "\r\n", "\r", "\n\n", "\n\r\n"))
    lines = [delimiter.join(in_quotes(chance, it, delimiter) for it in record) + end for record in records]
    text = ("\n" if chance.random() < 0.05 else "") + "".join(lines)
    if chance.random() < 0.2:
        text = text.removesuffix(end)
    if chance.random() < 0.05:
        text = f"sep={delimiter}\n{text}"
    if chance.random() < 0.05:
        text = "\ufeff" + text
    return text, delimiter


def changed(chance, text):
    """Bytes of which a few are others."""
    text = bytearray(text)
    for _ in range(chance.randrange(1, 4)):
        at = chance.randrange(len(text) + 1)
        which = chance.random()
        if which < 0.4:
            text[at:at] = chance.choice((*BYTES, b'"', b"\n", b",", b"\x1b", b"\r"))
        elif which < 0.7:
            del text[at : at + chance.randrange(1, 4)]
        else:
            text[at:at] = text[chance.randrange(len(text) + 1) :][: chance.randrange(1, 9)]
    return bytes(text)


def is_known(text):
    """Whether the reference knows the widths of all that may be shown of a text."""
    text = text.decode("utf-8", "ignore")
    if "\u200d" in text and re.search("[\U0001f1e6-\U0001f1ff]", text):
        return False
    return all(it < " " or "\x7f" <= it < "\xa0" or it in reference.OWN_WIDTHS for it in set(text))


def some_column(chance, header, count):
    """What a list calls a column."""
    if header and chance.random() < 0.4:
        name = strip(reference.cleaned(chance.choice(header), COLORS))
        if name and not re.search("[,=]", name):
            return name
    which = chance.random()
    return "none" if which < 0.02 else str(chance.randrange(count + (which < 0.06))) if count else "0"


def some_list(chance, header, count, values):
    """A list of columns and values; one in some is of a wrong form."""
    columns = dict.fromkeys(some_column(chance, header, count) for _ in range(chance.choice((1, 1, 2, 3))))
    text = ",".join(f"{it}={chance.choice(values)}" for it in columns)
    return changed(chance, text.encode()) if chance.random() < 0.03 else text.encode()


def some_choice(chance, header, count):
    """A list of chosen columns."""
    items = []
    for _ in range(chance.choice((1, 1, 2, 3, 5))):
        if count and chance.random() < 0.2:
            first = chance.randrange(count)
            items.append(f"{first}-{chance.randrange(first, count + (chance.random() < 0.05))}")
        else:
            items.append(some_column(chance, header, count))
    text = ",".join(items)
    return changed(chance, text.encode()) if chance.random() < 0.03 else text.encode()


def some_request(chance, records, delimiter):
    """What is requested of a table of records."""
    count = max(map(len, records), default=0)
    request = {"no_header": int(chance.random() < 0.25), "style": chance.choice((0, 1, 2, 3, 4, 4, 5)), "rules": chance.choice((0, 0, 1, 2))}
    header = records[0] if records and (not request["no_header"] or chance.random() < 0.1) else []
    request["escapes"] = chance.choice((COLORS, COLORS, COLORS, ALL_ESCAPES, reference.NO_ESCAPES))
    request["delimiter"] = 0 if delimiter in ",;|\t" and chance.random() < 0.5 else ord(delimiter)
    request["truncate"], request["priority"] = int(chance.random() < 0.35), chance.randrange(5)
    request["expanded"], request["all_columns"] = int(chance.random() < 0.2), int(chance.random() < 0.4)
    if chance.random() < 0.7 and (request["style"] != MARKDOWN or chance.random() < 0.02):
        request["width"] = chance.choice((chance.randrange(0, 8), chance.randrange(5, 20), chance.randrange(5, 40), chance.randrange(10, 90)))
    for name, chances in (("max_rows", 0.25), ("tail", 0.2)):
        if chance.random() < chances:
            request[name] = chance.choice((0, 1, 1, 2, 3, 5, 2**64 - 2))
    if chance.random() < 0.15 and ("tail" not in request or chance.random() < 0.05):
        request["head"] = chance.choice((1, 1, 2, 3, 2**64 - 1))
    if chance.random() < 0.25:
        request["columns"] = some_choice(chance, header, count)
    if chance.random() < 0.25:
        request["align"] = some_list(chance, header, count, list(reference.ALIGNMENTS))
    if chance.random() < 0.3:
        request["color"] = some_list(chance, header, count, list(COLOR_NAMES))
    return Asked(**request)


class Case:
    """A request of a text, or of cells."""

    def __init__(self, number):
        chance = random.Random(number)
        records = some_records(chance)
        text, delimiter = some_delimited(chance, records)
        self.number, self.asked, self.cells, self.text = number, some_request(chance, records, delimiter), None, text.encode()
        if chance.random() < 0.15:
            count = max(map(len, records), default=1)
            self.cells = [[it.encode() for it in (*record, *[""] * (count - len(record)))] for record in records]
            if chance.random() < 0.1 and records:
                record = chance.choice(self.cells)
                at = chance.randrange(count)
                record[at] = changed(chance, record[at])
        elif chance.random() < 0.15:
            self.text = changed(chance, self.text)
        self.is_known = is_known(b"".join(cell for record in self.cells for cell in record) if self.cells is not None else self.text)
        self.max_size = None if chance.random() < 0.97 else chance.choice((0, 1, 40, 200))
        self.room = None if chance.random() < 0.95 else chance.choice((0, 1, 30, 100))

    def wanted(self):
        """The status, what is reported beside it, and the bytes that are printed."""
        try:
            given = (self.asked, self.text) if self.cells is None else (self.asked, self.cells)
            out, wider = (reference.printed if self.cells is None else reference.printed_cells)(*given)
        except Refused as it:
            return it.status, (0, 0, it.line, it.field, it.row, it.column), b""
        if self.max_size is not None and len(out) > self.max_size:
            return OVER_MAX_SIZE, (0,) * 6, out[: self.max_size + 1]
        return 0, (len(out), int(wider), 0, 0, 0, 0), out

    def __str__(self):
        default = Asked()
        asked = ", ".join(f"{name}={value!r}" for name, value in self.asked._asdict().items() if value != getattr(default, name))
        return f"case {self.number}: {asked} of {self.text if self.cells is None else self.cells!r}, max_size {self.max_size}, room {self.room}"


# ---- the library


class Library:
    """The shared object at a path."""

    MOST = 1 << 20  # bytes of the greatest output that is compared

    def __init__(self, path):
        library = ctypes.CDLL(path)
        size, bytes_of, numbers = ctypes.c_size_t, ctypes.c_char_p, ctypes.POINTER(ctypes.c_size_t)
        lists = [bytes_of, size] * 3
        self.calls = library.basinmug_print, library.basinmug_print_cells
        self.calls[0].argtypes = [ctypes.c_void_p, *lists, bytes_of, size, bytes_of, size, numbers]
        self.calls[1].argtypes = [ctypes.c_void_p, *lists, bytes_of, size, numbers, size, size, bytes_of, size, numbers]
        self.out, self.answer = ctypes.create_string_buffer(self.MOST), (ctypes.c_size_t * 6)()

    def printed(self, asked, text, cells=None, max_size=None, room=None):
        """The status, what is reported beside it, and what is written into so many bytes of memory, which was zeros."""
        numbers = {name: value for name, value in asked._asdict().items() if not isinstance(value, bytes) and value is not None}
        options = printing(**numbers, **({} if max_size is None else {"max_size": max_size}))
        lists = [it for found in (asked.columns, asked.align, asked.color) for it in (found, len(found))]
        room = self.MOST if room is None else room
        if cells is None:
            status = self.calls[0](ctypes.byref(options), *lists, text, len(text), self.out, room, self.answer)
        else:
            lengths = [len(it) for record in cells for it in record]
            text = b"".join(it for record in cells for it in record)
            given = (text, len(text), (ctypes.c_size_t * len(lengths))(*lengths), len(lengths), len(cells[0]) if cells else 1)
            status = self.calls[1](ctypes.byref(options), *lists, *given, self.out, room, self.answer)
        answer = tuple(self.answer)
        return status, answer, self.written(status, answer, max_size, room)

    def written(self, status, answer, max_size, room):
        """What is in memory, which is zeros after it again."""
        size = answer[0] if status == 0 else max_size + 1 if status == OVER_MAX_SIZE else 0
        out = self.out.raw[: min(size, room)]
        ctypes.memset(self.out, 0, len(out))
        return out


# ---- what is promised of any output


def broken_promise(asked, out, wider):
    """What the first page says of what is printed and does not hold of this; nothing where all of it holds."""
    text, style = out.decode(), {}
    for at, piece in enumerate(reference.pieces(text)):
        if at % 2:
            style = reference.styled(style, piece)
            if asked.escapes != ALL_ESCAPES and not reference.is_kept(piece):
                return f"a sequence that is no colour: {piece!r}"
        elif style and "\n" in piece:
            return f"a style is open at the end of a line, before {piece!r}"
        elif asked.escapes != ALL_ESCAPES and re.search("[\0-\x09\x0b-\x1f\x7f-\x9f\u202a-\u202e\u2066-\u2069]", piece):
            return f"a control character: {piece!r}"
    if style or text and not text.endswith("\n"):
        return "the last line has no end, or has an open style there"
    return "" if asked.expanded else broken_edge(asked, strip(text).split("\n")[:-1], wider)


# Characters of which each adds its columns to those of any text, and pictures of others.
ADDED = re.compile("[ -~\xa1-\xa8\u0410-\u044f\u2026\u2400-\u2426\u2500-\u257f\u4e00-\u9fff\u3041-\u3096\ufffd]*")


def broken_edge(asked, lines, wider):
    """The same of the lines of a table, without their sequences."""
    lines = [it for it in lines if it and not re.fullmatch(r"\(\d+ .*\)", it)]
    if not all(map(ADDED.fullmatch, lines)):
        return ""
    widths = set(map(measure, lines))
    if asked.style == MARKDOWN:
        return ""
    if len(widths) > 1:
        return f"lines of {sorted(widths)} columns"
    if asked.width is not None and not wider and any(it > asked.width for it in widths):
        return f"wider than requested: {sorted(widths)}"
    return ""


def stripped_case(case):
    """The text of a case without its sequences and without colours of columns, where that has the same fields."""
    text = case.text.decode("utf-8", "surrogateescape")
    if case.cells is not None or case.asked.delimiter in (0, 0x1B) or case.asked.escapes == reference.NO_ESCAPES or '"' in text:
        return None
    if any(not reference.is_kept(it) or chr(case.asked.delimiter) in it for it in reference.pieces(text)[1::2]) or ESC in strip(text):
        return None
    # A line of sequences alone is a record, and an empty one is none; a mark at the start is no character.
    if strip(text).startswith("\ufeff") or any(it and not strip(it) for it in re.split("[\r\n]", text.removeprefix("\ufeff"))):
        return None
    return case.asked._replace(color=b""), strip(text).encode("utf-8", "surrogateescape")


def difference(library, case):
    """What is different of a case; nothing where nothing is."""
    found = library.printed(case.asked, case.text, case.cells, case.max_size, case.room)
    if case.is_known:
        status, answer, out = case.wanted()
        wanted = status, answer, out if case.room is None else out[: case.room]
        if found != wanted:
            return f"{case}\nprinted {found}\nwanted  {wanted}"
    if found[0] == 0 and case.room is None:
        broken = broken_promise(case.asked, found[2], found[1][1])
        other = stripped_case(case)
        if not broken and other:
            bare = library.printed(*other)
            if bare[0] == 0 and bare[2] != strip(found[2].decode()).encode():
                broken = f"without sequences it is not that of the stripped text: {bare[2].decode()!r}"
        if broken:
            return f"{case}\nprinted {found}\n{broken}"
    return ""

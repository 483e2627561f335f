"""The calls of the shared library, as `basinmug.h` declares them: on bytes, with a status."""
from __future__ import annotations

import ctypes
import os
from typing import Any, Callable, List, NamedTuple

VERSION = "0.1.0"
NONE = ctypes.c_size_t(-1).value  # no width, no count of records, no greatest size
NO_HEAD = 0
AUTO = 0
NAME = "libbasinmug.so.0"


class Options(ctypes.Structure):
    """`struct basinmug_print_options`."""

    _fields_ = [
        ("size", ctypes.c_size_t),
        *((name, ctypes.c_uint32) for name in ("delimiter", "no_header", "style", "rules", "escapes", "truncate", "priority", "expanded", "all_columns", "reserved")),
        *((name, ctypes.c_size_t) for name in ("width", "max_rows", "tail", "max_size", "head")),
        ("reserved_words", ctypes.c_uint64 * 6),
    ]


SIZE = ctypes.sizeof(Options)


class PrintAnswer(ctypes.Structure):
    """`struct basinmug_print_answer`."""

    _fields_ = [(name, ctypes.c_size_t) for name in ("size", "wider", "line", "field", "row", "column")]


class Answer(ctypes.Structure):
    """`struct basinmug_answer`."""

    _fields_ = [(name, ctypes.c_size_t) for name in ("size", "place", "row", "column")]


class Lists(NamedTuple):
    """Lists for single columns, as the program takes them; an empty one is none."""

    columns: bytes = b""
    align: bytes = b""
    color: bytes = b""


class Outcome(NamedTuple):
    """What a call returned: its status, what it wrote, and its answer."""

    status: int
    written: bytes
    answer: Any


def _path() -> str:
    """The file that BASINMUG_LIBRARY names, else the one in this package, else the one that the system finds."""
    beside = os.path.join(os.path.dirname(os.path.abspath(__file__)), NAME)
    return os.environ.get("BASINMUG_LIBRARY") or (beside if os.path.exists(beside) else NAME)


def _loaded(path: str) -> ctypes.CDLL:
    """The library of this path, which has this package's version."""
    try:
        library = ctypes.CDLL(path)
    except OSError as error:
        raise ImportError(f"{path} is not loaded ({error}): BASINMUG_LIBRARY may name it") from error
    first, second, third = map(int, VERSION.split("."))
    if library.basinmug_version() != 10000 * first + 100 * second + third:
        raise ImportError(f"{path} has version number {library.basinmug_version()}, and this package is {VERSION}")
    return library


def _call(name: str, answer: type, *given: type) -> Callable[..., int]:
    """A call of the library by name, whose last argument is an answer."""
    call = getattr(_library, name)
    call.restype, call.argtypes = ctypes.c_uint32, [*given, ctypes.POINTER(answer)]
    return call


_library = _loaded(_path())
_TEXT = (ctypes.c_char_p, ctypes.c_size_t)
_REQUEST = (ctypes.POINTER(Options), *_TEXT, *_TEXT, *_TEXT)
_CELLS = (*_TEXT, ctypes.POINTER(ctypes.c_size_t), ctypes.c_size_t, ctypes.c_size_t)
_print = _call("basinmug_print", PrintAnswer, *_REQUEST, *_TEXT, *_TEXT)
_print_cells = _call("basinmug_print_cells", PrintAnswer, *_REQUEST, *_CELLS, *_TEXT)
_width = _call("basinmug_width", Answer, *_TEXT)
_strip = _call("basinmug_strip", Answer, *_TEXT, *_TEXT)


def print_text(options: Options, lists: Lists, text: bytes) -> Outcome:
    """The table of a delimited text."""
    return _written(_print, (*_request(options, lists), text, len(text)), PrintAnswer, _memory(options, 4 * len(text)))


def print_cells(options: Options, lists: Lists, cells: List[bytes], columns: int) -> Outcome:
    """The table of cells, of which each record has so many."""
    text = b"".join(cells)
    # One length more than there are, so that none is no null pointer.
    lengths = (ctypes.c_size_t * (len(cells) + 1))(*map(len, cells))
    given = (*_request(options, lists), text, len(text), lengths, len(cells), columns)
    return _written(_print_cells, given, PrintAnswer, _memory(options, 2 * len(text) + 16 * len(cells)))


def width(text: bytes) -> Outcome:
    """How many columns a text takes, as the size of the answer."""
    answer = Answer()
    return Outcome(_width(text, len(text), answer), b"", answer)


def strip(text: bytes) -> Outcome:
    """A text without its escape sequences."""
    return _written(_strip, (text, len(text)), Answer, len(text))


def _request(options: Options, lists: Lists) -> tuple:
    return (options, *(it for found in lists for it in (found, len(found))))


def _memory(options: Options, guess: int) -> int:
    """How many bytes a first call gets: no more than the output may have."""
    return min(guess + 1024, options.max_size)


def _written(call: Callable[..., int], given: tuple, answers: type, memory: int) -> Outcome:
    """What a call writes. It is called once more where the first call reports more bytes than its memory holds."""
    while True:
        out, answer = ctypes.create_string_buffer(max(memory, 1)), answers()
        status = call(*given, out, memory, answer)
        if status or answer.size <= memory:
            return Outcome(status, ctypes.string_at(out, 0 if status else answer.size), answer)
        memory = answer.size

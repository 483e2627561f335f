"""Tables in straight columns, also around colours, CJK and emoji, by the library `libbasinmug`.

    >>> import basinmug
    >>> basinmug.print([{"name": "log", "size": 42}, {"name": "表", "size": None}])
    ╭──────┬──────╮
    │ name │ size │
    ├──────┼──────┤
    │ log  │   42 │
    │ 表   │      │
    ╰──────┴──────╯

The tables are those of the program `basinmug`, byte for byte. The library is the one in this package. Where there is
none, it is `libbasinmug.so.0` where the system finds it; BASINMUG_LIBRARY may name another file.
"""
from __future__ import annotations

import os
import re
import sys
from typing import Any, Callable, Dict, Iterable, Optional, TextIO, Union

from . import _library
from ._options import (
    ALIGNS,
    COLORS,
    ESCAPES,
    PRIORITIES,
    RULES,
    STYLES,
    ByColumn,
    Columns,
    by_headers,
    by_text,
    delimiter_of,
    encoded,
    head_of,
    lists_of,
    options_of,
)
from ._rows import Cells, cells_of
from .errors import (
    BadAlign,
    BadColor,
    BadColumns,
    BadOption,
    BadRow,
    BrokenEscape,
    NoColumn,
    NotUtf8,
    OpenQuote,
    OutOfMemory,
    OutOfRange,
    OverMaxSize,
    TableError,
)

# `print` and `csv` are left out, so that `from basinmug import *` keeps Python's own.
__all__ = [
    "ALIGNS",
    "BadAlign",
    "BadColor",
    "BadColumns",
    "BadOption",
    "BadRow",
    "BrokenEscape",
    "COLORS",
    "ESCAPES",
    "NoColumn",
    "NotUtf8",
    "OpenQuote",
    "OutOfMemory",
    "OutOfRange",
    "OverMaxSize",
    "PRIORITIES",
    "RULES",
    "STYLES",
    "TableError",
    "strip",
    "table",
    "width",
]
__version__ = _library.VERSION

# Several rows, each several cells, a mapping, or a dataclass.
Rows = Iterable[Any]

# The greatest width that COLUMNS says.
_GREATEST_WIDTH = 2 ** 32 - 1
_NOT_UTF8, _ESCAPE, _QUOTE = 1, 2, 10
_ERRORS: Dict[int, Callable[[], TableError]] = {
    3: lambda: OutOfRange("size out of range"),
    5: lambda: OutOfMemory("out of memory"),
    11: NoColumn,
    13: lambda: OverMaxSize("the table has more bytes than max_size"),
    39: lambda: BadColor("the list of colours is malformed"),
    45: lambda: BadOption("a table of Markdown takes no width"),
    46: lambda: BadAlign("the list of alignments is malformed"),
    47: lambda: BadColumns("the list of columns is malformed"),
}


def table(
    rows: Rows,
    headers: Optional[Iterable[object]] = None,
    *,
    width: Optional[int] = None,
    align: Optional[ByColumn] = None,
    color: Optional[ByColumn] = None,
    style: str = "rounded",
    columns: Optional[Columns] = None,
    rules: str = "header",
    truncate: bool = False,
    priority: str = "max",
    head: Optional[int] = None,
    max_rows: Optional[int] = None,
    tail: Optional[int] = None,
    expanded: bool = False,
    all_columns: bool = False,
    escapes: str = "colors",
    max_size: Optional[int] = None,
) -> str:
    """The table of rows, as the program `basinmug` prints it. Each line of it has a line feed.

    A row is several cells, a mapping or a dataclass; rows may come from a generator. A cell shows what `str` says of it,
    and None shows nothing. It may have line feeds, tabs and quotes. Rows with fewer cells are filled with empty ones.

    `headers` are the names of the columns. Of mappings and dataclasses the names are the headers; `headers` then says which
    of them are shown, in which order.

    `width`: the greatest width in columns; None is as wide as the text. Of too many columns the first and the last are shown,
    or all with `all_columns`. Lines are wrapped between words, or cut with `truncate`. `priority` is one of PRIORITIES and
    says which column gives first: "max" the widest, "min" the narrowest, "left", "right", "none" each in turn.

    `align` and `color`: a mapping of columns to names of ALIGNS and of COLORS, as {0: "bold", "size": "red"}. A number is a
    column from 0 on, and a text is a header. Columns of numbers are at the right where `align` does not say otherwise.

    `columns`: the columns that are shown, in this order: numbers, headers and ranges, as ["size", 0, range(2, 5)].

    Each of these three may also be a list as the program takes it: columns="2,0,4-6", align="0=right", color="size=red".

    `style` is one of STYLES. `rules` is one of RULES: lines below the header, between all rows, or between none.

    `head`: the first rows alone are read, and no more of a generator. `max_rows` and `tail`: how many of the first and of the
    last rows are shown; a line counts the others.

    `expanded`: the rows one below the other, each cell on lines of its own.

    `escapes` is one of ESCAPES: of the escape sequences of cells those of colours stay, all, or none. Of any other the escape is
    shown, but with those of colours ESC [ K, ESC [ 0 K and ESC ( B go.

    `max_size`: how many bytes the table may have.

    Raises a `TableError`: `BadRow` and `BadOption` (also `BadAlign`, `BadColor`, `BadColumns`) of what is given, `NoColumn`,
    `NotUtf8` of a lone surrogate, `BrokenEscape` where all sequences stay, `OutOfRange`, `OutOfMemory` or `OverMaxSize`.
    """
    cells = cells_of(rows, headers, head_of(head, tail))
    options = options_of(
        header=cells.headers is not None,
        width=width,
        style=style,
        rules=rules,
        truncate=truncate,
        priority=priority,
        max_rows=max_rows,
        tail=tail,
        expanded=expanded,
        all_columns=all_columns,
        escapes=escapes,
        max_size=max_size,
    )
    lists = lists_of(columns, align, color, by_headers(cells.headers, strip))
    found = [encoded(cell) for record in cells.records for cell in record]
    return _written(_library.print_cells(options, lists, found, cells.columns), cells)


def print(
    rows: Rows,
    headers: Optional[Iterable[object]] = None,
    *,
    file: Optional[TextIO] = None,
    width: Optional[int] = None,
    align: Optional[ByColumn] = None,
    color: Optional[ByColumn] = None,
    style: str = "rounded",
    columns: Optional[Columns] = None,
    rules: str = "header",
    truncate: bool = False,
    priority: str = "max",
    head: Optional[int] = None,
    max_rows: Optional[int] = None,
    tail: Optional[int] = None,
    expanded: bool = False,
    all_columns: bool = False,
    escapes: str = "colors",
    max_size: Optional[int] = None,
) -> None:
    """Writes the table of rows to `file`, or else to standard output; `table` says what the other arguments mean.

    Without `width` it is what COLUMNS says in the environment, a number from 1 to 4294967295, or else that of the terminal
    that `file` is, if it is one. A table of Markdown takes none. Where COLUMNS says it, and `file` is no terminal, all columns
    are shown. Where NO_COLOR is set and not empty, colours and all other escape sequences are left out.
    """
    out = sys.stdout if file is None else file
    is_terminal = getattr(out, "isatty", bool)()
    written = table(
        rows,
        headers,
        width=_width_of(style, out, is_terminal) if width is None else width,
        align=align,
        color=color,
        style=style,
        columns=columns,
        rules=rules,
        truncate=truncate,
        priority=priority,
        head=head,
        max_rows=max_rows,
        tail=tail,
        expanded=expanded,
        all_columns=all_columns or width is None and not is_terminal,
        escapes=escapes,
        max_size=max_size,
    )
    out.write(strip(written) if os.environ.get("NO_COLOR") else written)


def csv(
    text: Union[str, bytes],
    *,
    delimiter: Optional[str] = None,
    header: bool = True,
    width: Optional[int] = None,
    align: Optional[ByColumn] = None,
    color: Optional[ByColumn] = None,
    style: str = "rounded",
    columns: Optional[Columns] = None,
    rules: str = "header",
    truncate: bool = False,
    priority: str = "max",
    head: Optional[int] = None,
    max_rows: Optional[int] = None,
    tail: Optional[int] = None,
    expanded: bool = False,
    all_columns: bool = False,
    escapes: str = "colors",
    max_size: Optional[int] = None,
) -> str:
    """The table of CSV, TSV or other delimited text, as the program `basinmug` prints it; bytes are UTF-8.

    `delimiter` separates fields; None is what the text says: a first line as "sep=;", or else the signs of the first line.
    `header` says whether the first record is one. `table` says what the other arguments mean; `head` is at least 1 here, and
    a header of digits alone, or with a comma or a =, is named by its number.

    Raises a `TableError` as `table` does, `OpenQuote` too. `NotUtf8` and `BrokenEscape` have a line and a field, from 1 on.
    """
    read = head_of(head, tail)
    if read == _library.NO_HEAD:
        raise BadOption("head of a text is at least 1")
    options = options_of(
        header=header,
        width=width,
        style=style,
        rules=rules,
        truncate=truncate,
        priority=priority,
        max_rows=max_rows,
        tail=tail,
        expanded=expanded,
        all_columns=all_columns,
        escapes=escapes,
        max_size=max_size,
        head=read,
        delimiter=delimiter_of(delimiter),
    )
    lists = lists_of(columns, align, color, by_text)
    return _written(_library.print_text(options, lists, encoded(text) if isinstance(text, str) else bytes(text)))


def width(text: str) -> int:
    """How many columns the widest line of a text takes in a terminal, without its escape sequences. Raises `NotUtf8`."""
    outcome = _library.width(encoded(text))
    _written(outcome)
    return outcome.answer.size


def strip(text: str) -> str:
    """The text without its escape sequences. Raises `NotUtf8` or `OutOfMemory`."""
    return _written(_library.strip(encoded(text)))


def _written(outcome: _library.Outcome, cells: Optional[Cells] = None) -> str:
    """What a call wrote, or its error, with its place in the text or in the cells."""
    status, answer = outcome.status, outcome.answer
    if status in (_NOT_UTF8, _ESCAPE):
        raise _error_at(NotUtf8 if status == _NOT_UTF8 else BrokenEscape, answer, cells)
    if status == _QUOTE:
        raise OpenQuote(answer.line)
    if status:
        raise _ERRORS.get(status, lambda: TableError(f"status {status}"))()
    return outcome.written.decode("utf-8")


def _error_at(error: Any, answer: Any, cells: Optional[Cells]) -> TableError:
    """The error of a cell. The row of cells is None for a header."""
    if cells is not None:
        row = answer.row - (cells.headers is not None)
        return error(None if row < 0 else row, answer.column)
    if isinstance(answer, _library.PrintAnswer):
        return error(line=answer.line, field=answer.field)
    return error(byte=answer.place)


def _width_of(style: str, out: TextIO, is_terminal: bool) -> Optional[int]:
    """The width that COLUMNS says, or else that of the terminal; None where neither says one."""
    if style == "markdown":
        return None
    said = re.fullmatch("0*([1-9][0-9]{0,9})", os.environ.get("COLUMNS", ""))
    if said and int(said[1]) <= _GREATEST_WIDTH:
        return int(said[1])
    return _columns_of(out) if is_terminal else None


def _columns_of(terminal: TextIO) -> Optional[int]:
    """How many columns a terminal has; None where it is no file of the system's, or has no size."""
    try:
        return os.get_terminal_size(terminal.fileno()).columns or None
    except (AttributeError, OSError, ValueError):
        return None

"""Why there is no table. Each error is a `TableError`; rows, columns and bytes are counted from 0, lines and fields of a
text from 1."""
from __future__ import annotations

from typing import Optional


class TableError(Exception):
    """There is no table."""


class BadOption(TableError, ValueError):
    """An option has no such value, or is not taken beside another one."""


class BadColumns(BadOption):
    """The list of columns is malformed."""


class BadAlign(BadOption):
    """The list of alignments is malformed, names a column twice, or has a name that is no alignment."""


class BadColor(BadOption):
    """The list of colours is malformed, names a column twice, or has a name that is no colour."""


class NoColumn(TableError, LookupError):
    """A list names a column that there is not. `column` is its name, or None where only the library knows it."""

    def __init__(self, column: Optional[str] = None) -> None:
        super().__init__("columns, align or color names a column that there is not" if column is None else f"no column has the header {column!r}")
        self.column = column


class BadRow(TableError, TypeError):
    """Row `row` is no row of cells, or it has no names where others have. `row` is None where there are no rows at all."""

    def __init__(self, row: Optional[int], why: str) -> None:
        super().__init__(why if row is None else f"row {row} {why}")
        self.row = row


class _AtPlace(TableError, ValueError):
    """The error is in a cell of rows, at `row` and `column`, where `row` is None for a header; or in `field` of the record of
    a text, in `line`; or at `byte` of a text without cells. What does not say where it is is None."""

    what = ""

    def __init__(
        self,
        row: Optional[int] = None,
        column: Optional[int] = None,
        *,
        line: Optional[int] = None,
        field: Optional[int] = None,
        byte: Optional[int] = None,
    ) -> None:
        super().__init__(self.what + place_of(row, column, line, field, byte))
        self.row, self.column, self.line, self.field, self.byte = row, column, line, field, byte


class NotUtf8(_AtPlace):
    """A cell is not UTF-8: its text has a lone surrogate, or its bytes are none of a text."""

    what = "not UTF-8"


class BrokenEscape(_AtPlace):
    """With escapes="all": an ESC of a cell begins no whole sequence."""

    what = "broken escape"


class OpenQuote(TableError, ValueError):
    """A quote that opens a field of a text, in line `line`, is not closed."""

    def __init__(self, line: int) -> None:
        super().__init__(f"a quote that is not closed in line {line}")
        self.line = line


class OutOfRange(TableError, OverflowError):
    """A width, a height or a total of the table is too large."""


class OutOfMemory(TableError, MemoryError):
    """The library was given no memory."""


class OverMaxSize(TableError):
    """The table has more bytes than `max_size`."""


def place_of(
    row: Optional[int] = None,
    column: Optional[int] = None,
    line: Optional[int] = None,
    field: Optional[int] = None,
    byte: Optional[int] = None,
) -> str:
    """How a message names a place."""
    if byte is not None:
        return f" at byte {byte}"
    if line is not None:
        return f" in line {line}" + ("" if field is None else f", field {field}")
    return f" in header {column}" if row is None else f" in row {row}, column {column}"

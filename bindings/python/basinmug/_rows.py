"""Rows as callers have them, and the cells of them that the library reads."""
from __future__ import annotations

import dataclasses
import itertools
from typing import Iterable, List, Mapping, NamedTuple, Optional, Sequence

from .errors import BadOption, BadRow


class Cells(NamedTuple):
    """Rows of cells as texts, all of one length, and their headers, if they have any."""

    headers: Optional[List[str]]
    rows: List[List[str]]

    @property
    def columns(self) -> int:
        return len(self.rows[0] if self.headers is None and self.rows else self.headers or ())

    @property
    def records(self) -> List[List[str]]:
        """The rows, below their headers."""
        return self.rows if self.headers is None else [self.headers, *self.rows]


def cells_of(rows: object, headers: Optional[Iterable[object]], head: Optional[int]) -> Cells:
    """The cells of rows, of the first ones alone where `head` says how many. Short rows are filled with empty cells."""
    names = None if headers is None else _names_of(headers)
    given = list(itertools.islice(_iterable(rows), head))
    keyed = [_keyed(row) for row in given]
    if any(row is not None for row in keyed):
        names, found = _by_name(keyed, names)
    else:
        found = [_cells_of(at, row) for at, row in enumerate(given)]
    return _filled(None if names is None else [shown(name) for name in names], found)


def shown(cell: object) -> str:
    """The text of a cell: nothing for None, else what `str` says."""
    return "" if cell is None else str(cell)


def _filled(headers: Optional[List[str]], rows: List[List[str]]) -> Cells:
    """All rows with as many cells as the longest."""
    columns = max(map(len, rows if headers is None else [headers, *rows]), default=0)
    for row in rows if headers is None else [headers, *rows]:
        row.extend([""] * (columns - len(row)))
    return Cells(headers, rows)


def _names_of(headers: Iterable[object]) -> List[object]:
    """The headers of a caller, which are several."""
    if isinstance(headers, (str, bytes)) or not isinstance(headers, Iterable):
        raise BadOption(f"headers are several names: {headers!r}")
    return list(headers)


def _iterable(rows: object) -> Iterable[object]:
    if isinstance(rows, (str, bytes)):
        raise BadRow(None, f"rows are several rows, and not {type(rows).__name__}: `csv` takes a text")
    if isinstance(rows, Mapping) or not isinstance(rows, Iterable):
        raise BadRow(None, f"rows are several rows, and not {type(rows).__name__}")
    return rows


def _keyed(row: object) -> Optional[Mapping[object, object]]:
    """The cells of a row by name, where it is a mapping or a dataclass."""
    if isinstance(row, Mapping):
        return row
    if dataclasses.is_dataclass(row) and not isinstance(row, type):
        return {field.name: getattr(row, field.name) for field in dataclasses.fields(row)}
    return None


def _by_name(rows: Sequence[Optional[Mapping[object, object]]], names: Optional[List[object]]) -> tuple:
    """The names of columns, and the rows of their cells. All names are shown where none are given, in the order in which
    they first come."""
    for at, row in enumerate(rows):
        if row is None:
            raise BadRow(at, "has no names, and others have")
    known = {name: None for row in rows for name in row or ()}
    missing = [name for name in names or () if name not in known]
    if missing:
        raise BadOption(f"no row has the name {missing[0]!r}")
    names = list(known) if names is None else names
    return names, [[shown((row or {}).get(name)) for name in names] for row in rows]


def _cells_of(at: int, row: object) -> List[str]:
    if isinstance(row, (str, bytes)) or not isinstance(row, Iterable):
        raise BadRow(at, f"is no row of cells: {row!r}")
    return [shown(cell) for cell in row]

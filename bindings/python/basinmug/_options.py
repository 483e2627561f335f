"""What is requested of a table, as the library takes it: numbers, and lists for single columns."""
from __future__ import annotations

from typing import Callable, Collection, Dict, Iterable, List, Mapping, Optional, Type, Union

from . import _library
from .errors import BadAlign, BadColor, BadColumns, BadOption, NoColumn

STYLES: Dict[str, int] = {"ascii": 0, "modern": 1, "extended": 2, "empty": 3, "rounded": 4, "markdown": 5}
RULES: Dict[str, int] = {"header": 0, "all": 1, "none": 2}
PRIORITIES: Dict[str, int] = {"none": 0, "min": 1, "max": 2, "left": 3, "right": 4}
ESCAPES: Dict[str, int] = {"colors": 0, "all": 1, "none": 2}
ALIGNS = ("left", "center", "right")
COLORS = ("black", "red", "green", "yellow", "blue", "magenta", "cyan", "white", "bold", "underline")
GREATEST_COLUMN = 2 ** 32 - 1

# A column by its number from 0, or by its header.
Column = Union[int, str]
# What single columns have, or a list of it as the program takes it.
ByColumn = Union[str, Mapping[int, str], Mapping[str, str], Mapping[Column, str]]
# Columns, also ranges of them; or a list as the program takes it.
Columns = Union[str, Iterable[Union[int, str, range]]]
# How a list writes a column.
Written = Callable[[Column], str]


def options_of(
    *,
    header: bool,
    width: Optional[int],
    style: str,
    rules: str,
    truncate: bool,
    priority: str,
    max_rows: Optional[int],
    tail: Optional[int],
    expanded: bool,
    all_columns: bool,
    escapes: str,
    max_size: Optional[int],
    head: Optional[int] = None,
    delimiter: int = _library.AUTO,
) -> _library.Options:
    """The numbers of these options."""
    return _library.Options(
        size=_library.SIZE,
        delimiter=delimiter,
        no_header=not header,
        style=_named(STYLES, style, "style"),
        rules=_named(RULES, rules, "rules"),
        escapes=_named(ESCAPES, escapes, "escapes"),
        truncate=bool(truncate),
        priority=_named(PRIORITIES, priority, "priority"),
        expanded=bool(expanded),
        all_columns=bool(all_columns),
        width=count_of(width, "width"),
        max_rows=count_of(max_rows, "max_rows"),
        tail=count_of(tail, "tail"),
        max_size=count_of(max_size, "max_size"),
        head=_library.NO_HEAD if head is None else head,
    )


def lists_of(columns: Optional[Columns], align: Optional[ByColumn], color: Optional[ByColumn], written: Written) -> _library.Lists:
    """The lists of these options."""
    return _library.Lists(
        _columns(columns, written),
        _by_column(align, written, lambda it: _one_of(ALIGNS, it, "alignment", BadAlign)),
        _by_column(color, written, lambda it: _one_of(COLORS, it, "colour", BadColor)),
    )


def count_of(number: Optional[int], what: str) -> int:
    """A number of an option; None is no number."""
    if number is None:
        return _library.NONE
    if not isinstance(number, int) or not 0 <= number < _library.NONE:
        raise BadOption(f"{what} is no number from 0 on: {number!r}")
    return number


def head_of(head: Optional[int], tail: Optional[int]) -> Optional[int]:
    """How many records are read, which is not taken beside the last ones."""
    if head is not None and tail is not None:
        raise BadOption("head and tail are not taken together")
    return None if head is None else count_of(head, "head")


def delimiter_of(delimiter: Optional[str]) -> int:
    """The byte that separates fields; None where the text says it."""
    if delimiter is None:
        return _library.AUTO
    if not isinstance(delimiter, str) or len(delimiter) != 1 or not delimiter.isascii() or delimiter in '\0"\r\n':
        raise BadOption(f"a delimiter is one character of ASCII, and no quote or end of a line: {delimiter!r}")
    return ord(delimiter)


def by_headers(headers: Optional[List[str]], stripped: Callable[[str], str]) -> Written:
    """How lists write columns of these headers: by their numbers, since any text may be a header. Of several columns with
    one header, whose sequences don't count, the first is meant."""
    exact, shown = _first_numbers(headers or ()), _first_numbers(map(stripped, headers or ()))

    def written(column: Column) -> str:
        if isinstance(column, int):
            return _number(column)
        if isinstance(column, str):
            for number_of in (exact, shown):
                number = number_of(column)
                if number is not None:
                    return _number(number)
        raise NoColumn(column)

    return written


def _first_numbers(texts: Iterable[str]) -> Callable[[str], Optional[int]]:
    """The number of the first of these texts that is the same. Each is read once, and no more than are needed."""
    unread = enumerate(texts)
    found: Dict[str, int] = {}

    def number_of(text: str) -> Optional[int]:
        if text not in found:
            for number, it in unread:
                found.setdefault(it, number)
                if it == text:
                    break
        return found.get(text)

    return number_of


def by_text(column: Column) -> str:
    """How lists write columns whose headers are in a text that is not read yet."""
    if isinstance(column, int):
        return _number(column)
    if not column or column.isdigit() or {",", "="} & {*column}:
        raise BadOption(f"no list can name the column {column!r}: its number can")
    return column


def _number(column: int) -> str:
    if not 0 <= column <= GREATEST_COLUMN:
        raise BadOption(f"no number of a column: {column!r}")
    return str(int(column))


def _named(names: Mapping[str, int], name: str, what: str) -> int:
    return names[_one_of(names, name, what, BadOption)]


def _one_of(names: Collection[str], name: str, what: str, error: Type[BadOption]) -> str:
    if not isinstance(name, str) or name not in names:
        raise error(f"no {what} is called {name!r}: {', '.join(names)}")
    return name


def _columns(columns: Optional[Columns], written: Written) -> bytes:
    if columns is None or isinstance(columns, str):
        return encoded(columns or "")
    found = [written(it) for item in columns for it in (item if isinstance(item, range) else [item])]
    if not found:
        raise BadColumns("no columns are given")
    return encoded(",".join(found))


def _by_column(values: Optional[ByColumn], written: Written, named: Callable[[str], str]) -> bytes:
    """A list of named values; of several for one column the last decides."""
    if values is None or isinstance(values, str):
        return encoded(values or "")
    found = {written(column): named(value) for column, value in values.items()}
    return encoded(",".join(f"{column}={value}" for column, value in found.items()))


def encoded(text: str) -> bytes:
    """A text for the library, which refuses a lone surrogate at its place."""
    return text.encode("utf-8", "surrogatepass")

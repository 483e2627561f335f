//! Why there is no table.
use std::fmt;

/// Why there is no table.
#[derive(Clone, Debug, PartialEq, Eq)]
#[non_exhaustive]
pub enum Error {
    /// The bytes of a text are not UTF-8.
    NotUtf8(Place),
    /// Where all escape sequences stay: an ESC begins no whole sequence.
    Escape(Place),
    /// A quote that opens a field of a text, in this line from 1 on, is not closed.
    Quote {
        /// The line.
        line: usize,
    },
    /// No column has this header, or a number or a header that only the library knows.
    NoColumn(Option<String>),
    /// No columns are requested.
    NoColumns,
    /// Of a text that is not read yet no list can name the column of this header; its number can. The header is empty, of
    /// digits alone, of two numbers with a hyphen between them, or has a comma or an equals sign.
    Name(String),
    /// `head` is not taken together with `tail`, and of a text it is at least 1.
    Head,
    /// The delimiter is no byte of ASCII, or a quote, LF, CR or NUL.
    Delimiter,
    /// A table of Markdown takes no width.
    Markdown,
    /// A width, a height or a total of the table passes `usize::MAX`.
    Range,
    /// There is no memory for the table.
    Memory,
    /// The table has more bytes than it may have.
    OverMaxSize,
    /// The library has another version than this package, of this number.
    Version(u32),
    /// The library returned a status that this package does not know.
    Status(u32),
}

/// Where an error is.
#[derive(Clone, Copy, Debug, PartialEq, Eq, Hash)]
#[non_exhaustive]
pub enum Place {
    /// A cell of the header, counted from 0.
    Header {
        /// The column of the cell.
        column: usize,
    },
    /// A cell below the header. Rows and columns are counted from 0.
    Cell {
        /// The row of the cell.
        row: usize,
        /// Its column.
        column: usize,
    },
    /// A field of a text. Lines and fields are counted from 1.
    Field {
        /// The line of the error.
        line: usize,
        /// The field in its record.
        field: usize,
    },
}

impl Error {
    /// The error of a status without a place.
    pub(crate) fn of_status(status: u32) -> Error {
        match status {
            3 => Error::Range,
            5 => Error::Memory,
            11 => Error::NoColumn(None),
            13 => Error::OverMaxSize,
            40 => Error::Delimiter,
            45 => Error::Markdown,
            50 => Error::Head,
            other => Error::Status(other),
        }
    }
}

impl fmt::Display for Error {
    fn fmt(&self, f: &mut fmt::Formatter<'_>) -> fmt::Result {
        match self {
            Error::NotUtf8(place) => write!(f, "not UTF-8 in {place}"),
            Error::Escape(place) => write!(f, "broken escape in {place}"),
            Error::Quote { line } => write!(f, "a quote that is not closed in line {line}"),
            Error::NoColumn(Some(header)) => write!(f, "no column has the header {header:?}"),
            Error::NoColumn(None) => {
                f.write_str("columns, align or color names a column that there is not")
            }
            Error::NoColumns => f.write_str("no columns are requested"),
            Error::Name(header) => {
                write!(f, "no list can name the column {header:?}: its number can")
            }
            Error::Head => {
                f.write_str("head is not taken with tail, and of a text it is at least 1")
            }
            Error::Delimiter => {
                f.write_str("a delimiter is a byte of ASCII, and no quote or end of a line")
            }
            Error::Markdown => f.write_str("a table of Markdown takes no width"),
            Error::Range => f.write_str("size out of range"),
            Error::Memory => f.write_str("out of memory"),
            Error::OverMaxSize => f.write_str("the table has more bytes than it may have"),
            Error::Version(number) => write!(f, "the library has version number {number}"),
            Error::Status(status) => write!(f, "status {status}"),
        }
    }
}

impl std::error::Error for Error {}

impl fmt::Display for Place {
    fn fmt(&self, f: &mut fmt::Formatter<'_>) -> fmt::Result {
        match self {
            Place::Header { column } => write!(f, "header {column}"),
            Place::Cell { row, column } => write!(f, "row {row}, column {column}"),
            Place::Field { line, field } => write!(f, "line {line}, field {field}"),
        }
    }
}

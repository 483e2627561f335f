//! Tables in straight columns, also around colours, CJK and emoji, by the library `libbasinmug`. They are those of the program
//! `basinmug`, byte for byte.
//!
//! ```
//! use basinmug::{Color, Style, Table};
//!
//! let table = Table::new([("log", 42), ("表", 7)].map(|(name, size)| [name.to_string(), size.to_string()]))
//!     .header(["name", "size"])
//!     .style(Style::Modern)
//!     .width(80)
//!     .color("size", Color::Red)
//!     .to_string();
//! assert_eq!(
//!     table,
//!     "\
//! ┌──────┬──────┐
//! │ name │ \x1b[31msize\x1b[39m │
//! ├──────┼──────┤
//! │ log  │   \x1b[31m42\x1b[39m │
//! │ 表   │    \x1b[31m7\x1b[39m │
//! └──────┴──────┘
//! "
//! );
//! ```
//!
//! The build script links `libbasinmug.a` from the folder that `BASINMUG_LIB_DIR` names, or else from where `pkg-config`
//! finds it.
#![warn(missing_docs)]

mod columns;
mod error;
mod library;
mod table;

pub use columns::{Align, Color, Column};
pub use error::{Error, Place};
pub use table::{Escapes, Priority, Rows, Rules, Source, Style, Table, Text};

/// How many columns the widest line of a text takes in a terminal, without its escape sequences.
///
/// ```
/// assert_eq!(basinmug::width("\x1b[1m表\x1b[0m\nabc"), 3);
/// ```
pub fn width(text: &str) -> usize {
    library::width(text)
}

/// The text without its escape sequences; of one that is not whole, the ESC alone is left out.
///
/// # Errors
///
/// [`Error::Memory`] if there is no memory.
///
/// ```
/// assert_eq!(basinmug::strip("\x1b[31mred\x1b[0m")?, "red");
/// # Ok::<(), basinmug::Error>(())
/// ```
pub fn strip(text: &str) -> Result<String, Error> {
    library::strip(text).map_err(|refused| Error::of_status(refused.status))
}

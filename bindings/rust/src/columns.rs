//! Columns, what single ones have, and how the lists of the library write them.
use crate::error::Error;
use std::cell::RefCell;
use std::collections::{HashMap, HashSet};
use std::fmt::{self, Display};
use std::hash::Hash;

/// A column: by its number, counted from 0, or by its header. Of several columns with one header the first is meant; escape
/// sequences of a header don't count.
///
/// ```
/// use basinmug::Column;
///
/// assert_eq!(Column::from(2), Column::Number(2));
/// assert_eq!(Column::from("size"), Column::Header("size".into()));
/// ```
#[derive(Clone, Debug, PartialEq, Eq, Hash)]
pub enum Column {
    /// The column of this number.
    Number(usize),
    /// The column of this header.
    Header(String),
}

impl From<usize> for Column {
    fn from(number: usize) -> Column {
        Column::Number(number)
    }
}

impl From<&str> for Column {
    fn from(header: &str) -> Column {
        Column::Header(header.into())
    }
}

impl From<String> for Column {
    fn from(header: String) -> Column {
        Column::Header(header)
    }
}

/// Where the texts of a column are.
#[derive(Clone, Copy, Debug, PartialEq, Eq, Hash)]
pub enum Align {
    /// At the left.
    Left,
    /// In the middle.
    Center,
    /// At the right.
    Right,
}

/// A colour of a column.
#[derive(Clone, Copy, Debug, PartialEq, Eq, Hash)]
#[allow(missing_docs)]
pub enum Color {
    Black,
    Red,
    Green,
    Yellow,
    Blue,
    Magenta,
    Cyan,
    White,
    Bold,
    Underline,
}

impl Display for Align {
    fn fmt(&self, f: &mut fmt::Formatter<'_>) -> fmt::Result {
        f.write_str(match self {
            Align::Left => "left",
            Align::Center => "center",
            Align::Right => "right",
        })
    }
}

impl Display for Color {
    fn fmt(&self, f: &mut fmt::Formatter<'_>) -> fmt::Result {
        f.write_str(match self {
            Color::Black => "black",
            Color::Red => "red",
            Color::Green => "green",
            Color::Yellow => "yellow",
            Color::Blue => "blue",
            Color::Magenta => "magenta",
            Color::Cyan => "cyan",
            Color::White => "white",
            Color::Bold => "bold",
            Color::Underline => "underline",
        })
    }
}

/// The greatest number that a list takes.
const GREATEST: usize = u32::MAX as usize;

/// How lists write columns.
pub type Written<'a> = Box<dyn Fn(&Column) -> Result<String, Error> + 'a>;

/// The list of the columns that are shown; empty where none are requested.
pub fn columns_list(columns: Option<&[Column]>, written: &Written<'_>) -> Result<String, Error> {
    match columns {
        None => Ok(String::new()),
        Some([]) => Err(Error::NoColumns),
        Some(columns) => {
            if columns.iter().any(is_past_all) {
                return Err(Error::NoColumn(None));
            }
            let items: Vec<String> = columns.iter().map(written).collect::<Result<_, _>>()?;
            Ok(items.join(","))
        }
    }
}

/// The list of what columns have; of several values of one column the last decides.
pub fn values_list<V: Display>(
    values: &[(Column, V)],
    written: &Written<'_>,
) -> Result<String, Error> {
    let (mut seen, mut items) = (HashSet::new(), Vec::new());
    for (column, value) in values.iter().rev().filter(|(it, _)| !is_past_all(it)) {
        let column = written(column)?;
        if seen.insert(column.clone()) {
            items.push(format!("{column}={value}"));
        }
    }
    items.reverse();
    Ok(items.join(","))
}

/// How lists write columns of these headers: by their numbers, since any text may be a header. Headers are stripped once, and
/// only where a list has a text that is none of them.
pub fn by_headers<'a>(
    headers: &'a [String],
    stripped: impl Fn(&str) -> Result<String, Error> + 'a,
) -> impl Fn(&Column) -> Result<String, Error> + 'a {
    let exact = first_numbers(headers.iter().map(String::as_str));
    let shown = RefCell::new(HashMap::new());
    move |column| {
        let header = match column {
            Column::Number(number) => return Ok(number.to_string()),
            Column::Header(header) => header,
        };
        if let Some(number) = exact.get(header.as_str()) {
            return Ok(number.to_string());
        }
        let mut shown = shown.borrow_mut();
        if shown.is_empty() {
            let texts = headers.iter().map(|it| stripped(it));
            *shown = first_numbers(texts.collect::<Result<Vec<_>, _>>()?);
        }
        match shown.get(header) {
            Some(number) => Ok(number.to_string()),
            None => Err(Error::NoColumn(Some(header.clone()))),
        }
    }
}

/// Each of these texts, with the number of the first that is the same.
fn first_numbers<T: Eq + Hash>(texts: impl IntoIterator<Item = T>) -> HashMap<T, usize> {
    let mut found = HashMap::new();
    for (number, text) in texts.into_iter().enumerate() {
        found.entry(text).or_insert(number);
    }
    found
}

/// How lists write columns whose headers are in a text that is not read yet.
pub fn by_text(column: &Column) -> Result<String, Error> {
    match column {
        Column::Number(number) => Ok(number.to_string()),
        Column::Header(header) if is_plain(header) => Ok(header.clone()),
        Column::Header(header) => Err(Error::Name(header.clone())),
    }
}

/// Whether a list takes this text as that of a header.
fn is_plain(header: &str) -> bool {
    let is_number = |it: &str| !it.is_empty() && it.bytes().all(|it| it.is_ascii_digit());
    let is_range = header
        .split_once('-')
        .map_or(false, |(first, last)| is_number(first) && is_number(last));
    !(header.is_empty() || is_number(header) || is_range || header.contains([',', '=']))
}

fn is_past_all(column: &Column) -> bool {
    matches!(column, Column::Number(number) if *number > GREATEST)
}

//! A table, and what is requested of it.
use crate::columns::{
    by_headers, by_text, columns_list, values_list, Align, Color, Column, Written,
};
use crate::error::{Error, Place};
use crate::library::{self, Lists, Options, Refused, Request};
use std::fmt;

/// The lines of a table.
#[derive(Clone, Copy, Debug, Default, PartialEq, Eq, Hash)]
pub enum Style {
    /// Lines of `-`, `|` and `+`.
    Ascii,
    /// Light lines.
    Modern,
    /// Double lines.
    Extended,
    /// No lines.
    Empty,
    /// Light lines with round corners.
    #[default]
    Rounded,
    /// A table for a Markdown document, which takes no width.
    Markdown,
}

/// Between which rows there are lines.
#[derive(Clone, Copy, Debug, Default, PartialEq, Eq, Hash)]
pub enum Rules {
    /// Below the header.
    #[default]
    Header,
    /// Between each two rows.
    All,
    /// Between none.
    None,
}

/// Which column gives first where the table is made narrower. Of equally wide columns it is the right one.
#[derive(Clone, Copy, Debug, Default, PartialEq, Eq, Hash)]
pub enum Priority {
    /// One after the other.
    InTurn,
    /// The narrowest.
    Narrowest,
    /// The widest.
    #[default]
    Widest,
    /// The first.
    Leftmost,
    /// The last.
    Rightmost,
}

/// Which escape sequences of cells stay. Of any other the escape is shown, but with `Colors` `ESC [ K`, `ESC [ 0 K` and
/// `ESC ( B` go.
#[derive(Clone, Copy, Debug, Default, PartialEq, Eq, Hash)]
pub enum Escapes {
    /// Those of colours and other styles.
    #[default]
    Colors,
    /// All of them: the cells have to be trusted.
    All,
    /// None.
    None,
}

/// Rows of cells, as a [`Table`] has them.
#[derive(Clone, Debug, Default)]
pub struct Rows {
    header: Option<Vec<String>>,
    rows: Vec<Vec<String>>,
}

/// CSV, TSV or other delimited text, as a [`Table`] has it.
#[derive(Clone, Debug, Default)]
pub struct Text {
    text: Vec<u8>,
    delimiter: Option<u8>,
    no_header: bool,
}

/// A table of rows or of a text, as the program `basinmug` prints it. Each method changes one option and returns the table;
/// [`render`](Table::render) prints it into a `String`, and so do [`Display`](fmt::Display) and `to_string`.
#[derive(Clone, Debug)]
pub struct Table<S = Rows> {
    source: S,
    options: Options,
    columns: Option<Vec<Column>>,
    align: Vec<(Column, Align)>,
    color: Vec<(Column, Color)>,
    head: Option<usize>,
}

impl Table<Rows> {
    /// A table of rows of cells, as wide as its text. A cell may have any text, also line feeds, tabs and quotes. A row with
    /// fewer cells is filled with empty ones.
    ///
    /// ```
    /// use basinmug::Table;
    ///
    /// let sizes = vec![vec![1.5, 2.0], vec![3.25]];
    /// assert_eq!(Table::new(sizes).to_string(), "╭──────┬───╮\n│  1.5 │ 2 │\n│ 3.25 │   │\n╰──────┴───╯\n");
    /// ```
    pub fn new<R>(rows: R) -> Table<Rows>
    where
        R: IntoIterator,
        R::Item: IntoIterator,
        <R::Item as IntoIterator>::Item: ToString,
    {
        Table::of(Rows {
            header: None,
            rows: rows.into_iter().map(cells_of).collect(),
        })
    }

    /// The names of the columns, which are above a line.
    ///
    /// ```
    /// use basinmug::Table;
    ///
    /// let table = Table::new([[1, 2]]).header(["a", "b"]).to_string();
    /// assert_eq!(table, "╭───┬───╮\n│ a │ b │\n├───┼───┤\n│ 1 │ 2 │\n╰───┴───╯\n");
    /// ```
    pub fn header<H>(mut self, names: H) -> Table<Rows>
    where
        H: IntoIterator,
        H::Item: ToString,
    {
        self.source.header = Some(cells_of(names));
        self
    }
}

impl Table<Text> {
    /// A table of CSV, TSV or other delimited text in UTF-8. The first record is the header.
    ///
    /// ```
    /// use basinmug::Table;
    ///
    /// let table = Table::csv("name;price\n\"a; b\";1.5\n").color("price", basinmug::Color::Red).to_string();
    /// assert_eq!(table, "╭──────┬───────╮\n│ name │ \x1b[31mprice\x1b[39m │\n├──────┼───────┤\n│ a; b │   \x1b[31m1.5\x1b[39m │\n╰──────┴───────╯\n");
    /// ```
    pub fn csv(text: impl Into<Vec<u8>>) -> Table<Text> {
        Table::of(Text {
            text: text.into(),
            ..Text::default()
        })
    }

    /// The byte of ASCII that separates fields. Where none is given the text says it: a first line as `sep=;`, or else the
    /// signs of the first line.
    pub fn delimiter(mut self, delimiter: u8) -> Table<Text> {
        self.source.delimiter = Some(delimiter);
        self
    }

    /// Takes the first record as one like the others.
    pub fn no_header(mut self) -> Table<Text> {
        self.source.no_header = true;
        self
    }
}

impl<S: Source> Table<S> {
    fn of(source: S) -> Table<S> {
        Table {
            source,
            options: Options::default(),
            columns: None,
            align: Vec::new(),
            color: Vec::new(),
            head: None,
        }
    }

    /// The greatest width, in columns. Of too many columns the first and the last are shown. Lines are wrapped between words.
    ///
    /// ```
    /// use basinmug::Table;
    ///
    /// let table = Table::new([["12 34 56"]]).width(6).to_string();
    /// assert_eq!(table, "╭────╮\n│ 12 │\n│ 34 │\n│ 56 │\n╰────╯\n");
    /// ```
    pub fn width(mut self, columns: usize) -> Table<S> {
        self.options.width = at_most(columns);
        self
    }

    /// Cuts off what passes the width, in place of wrapping it.
    pub fn truncate(mut self) -> Table<S> {
        self.options.truncate = 1;
        self
    }

    /// Which column gives first where the table is made narrower.
    pub fn priority(mut self, priority: Priority) -> Table<S> {
        self.options.priority = priority as u32;
        self
    }

    /// Shows all columns in a width, so that the table may be wider.
    pub fn all_columns(mut self) -> Table<S> {
        self.options.all_columns = 1;
        self
    }

    /// The lines of the table.
    pub fn style(mut self, style: Style) -> Table<S> {
        self.options.style = style as u32;
        self
    }

    /// Between which rows there are lines.
    pub fn rules(mut self, rules: Rules) -> Table<S> {
        self.options.rules = rules as u32;
        self
    }

    /// The columns that are shown, in this order.
    ///
    /// ```
    /// use basinmug::{Column, Table};
    ///
    /// let table = Table::new([["p", "q", "r"]]).header(["a", "b", "c"]);
    /// assert_eq!(table.clone().columns(["c", "a"]).to_string(), "╭───┬───╮\n│ c │ a │\n├───┼───┤\n│ r │ p │\n╰───┴───╯\n");
    /// assert_eq!(table.clone().columns(0..3).to_string(), table.to_string());
    /// let both = table.clone().columns([Column::from("c"), 0.into()]);
    /// assert_eq!(both.to_string(), table.columns([2, 0]).to_string());
    /// ```
    pub fn columns<C>(mut self, columns: C) -> Table<S>
    where
        C: IntoIterator,
        C::Item: Into<Column>,
    {
        self.columns = Some(columns.into_iter().map(Into::into).collect());
        self
    }

    /// Where the texts of a column are. Columns of numbers are at the right where nothing else is requested.
    pub fn align(mut self, column: impl Into<Column>, align: Align) -> Table<S> {
        self.align.push((column.into(), align));
        self
    }

    /// The colour of a column. Of several the last decides, and a number past the last column does nothing.
    pub fn color(mut self, column: impl Into<Column>, color: Color) -> Table<S> {
        self.color.push((column.into(), color));
        self
    }

    /// How many of the first rows are shown at most; a line below them counts the others.
    pub fn max_rows(mut self, rows: usize) -> Table<S> {
        self.options.max_rows = at_most(rows);
        self
    }

    /// How many of the last rows are shown at most.
    pub fn tail(mut self, rows: usize) -> Table<S> {
        self.options.tail = at_most(rows);
        self
    }

    /// Takes so many of the first rows alone, as if there were no others. It is not taken together with `tail`, and of a text
    /// it is at least 1.
    pub fn head(mut self, rows: usize) -> Table<S> {
        self.head = Some(rows);
        self
    }

    /// Prints the rows one below the other, each cell on lines of its own.
    pub fn expanded(mut self) -> Table<S> {
        self.options.expanded = 1;
        self
    }

    /// Which escape sequences of cells stay.
    pub fn escapes(mut self, escapes: Escapes) -> Table<S> {
        self.options.escapes = escapes as u32;
        self
    }

    /// How many bytes the table may have.
    pub fn max_size(mut self, bytes: usize) -> Table<S> {
        self.options.max_size = at_most(bytes);
        self
    }

    /// The table, each line of it with a line feed.
    ///
    /// # Errors
    ///
    /// The [`Error`] says why there is none, and where.
    ///
    /// ```
    /// use basinmug::{Error, Escapes, Place, Table};
    ///
    /// let error = Table::new([["a", "\x1b["]]).escapes(Escapes::All).render().unwrap_err();
    /// assert_eq!(error, Error::Escape(Place::Cell { row: 0, column: 1 }));
    /// assert_eq!(error.to_string(), "broken escape in row 0, column 1");
    /// ```
    pub fn render(&self) -> Result<String, Error> {
        if library::version() != VERSION {
            return Err(Error::Version(library::version()));
        }
        if self.head.is_some() && self.options.tail != library::NONE {
            return Err(Error::Head);
        }
        let request = Request {
            options: self.options.clone(),
            lists: self.lists()?,
        };
        self.source.printed(request, self.head)
    }

    // What single columns have, as the library reads it.
    fn lists(&self) -> Result<Lists, Error> {
        let written = &self.source.written();
        Ok(Lists {
            columns: columns_list(self.columns.as_deref(), written)?,
            align: values_list(&self.align, written)?,
            color: values_list(&self.color, written)?,
        })
    }
}

/// What a [`Table`] is made of: [`Rows`] or [`Text`].
pub trait Source: sealed::Printed {}

impl Source for Rows {}

impl Source for Text {}

mod sealed {
    use super::{Error, Request, Written};

    pub trait Printed {
        /// How lists write columns.
        fn written(&self) -> Written<'_>;

        /// The table, of so many of the first rows.
        fn printed(&self, request: Request, head: Option<usize>) -> Result<String, Error>;
    }
}

impl sealed::Printed for Rows {
    fn written(&self) -> Written<'_> {
        let headers = self.header.as_deref().unwrap_or_default();
        Box::new(by_headers(headers, crate::strip))
    }

    fn printed(&self, mut request: Request, head: Option<usize>) -> Result<String, Error> {
        let rows = &self.rows[..head.unwrap_or(usize::MAX).min(self.rows.len())];
        let records = || self.header.iter().chain(rows);
        let columns = records().map(Vec::len).max().unwrap_or(0);
        let (mut cells, mut lengths) = (String::new(), Vec::new());
        for record in records() {
            record.iter().for_each(|cell| cells.push_str(cell));
            lengths.extend(record.iter().map(String::len));
            lengths.resize(lengths.len() + columns - record.len(), 0);
        }
        request.options.no_header = self.header.is_none().into();
        library::print_cells(&request, &cells, &lengths, columns).map_err(|it| self.error_of(&it))
    }
}

impl Rows {
    fn error_of(&self, refused: &Refused) -> Error {
        let column = refused.column;
        let place = match refused.row.checked_sub(self.header.is_some().into()) {
            Some(row) => Place::Cell { row, column },
            None => Place::Header { column },
        };
        error_at(refused, place)
    }
}

impl sealed::Printed for Text {
    fn written(&self) -> Written<'_> {
        Box::new(by_text)
    }

    fn printed(&self, mut request: Request, head: Option<usize>) -> Result<String, Error> {
        let options = &mut request.options;
        options.no_header = self.no_header.into();
        options.delimiter = match self.delimiter {
            None => library::AUTO,
            Some(0) => return Err(Error::Delimiter),
            Some(byte) => byte.into(),
        };
        options.head = match head {
            None => library::NO_HEAD,
            Some(0) => return Err(Error::Head),
            Some(rows) => rows,
        };
        library::print_text(&request, &self.text).map_err(|refused| {
            let Refused { line, field, .. } = refused;
            error_at(&refused, Place::Field { line, field })
        })
    }
}

/// Prints the table. Where [`render`](Table::render) has an error this is `fmt::Error`, and `to_string` panics.
impl<S: Source> fmt::Display for Table<S> {
    fn fmt(&self, f: &mut fmt::Formatter<'_>) -> fmt::Result {
        f.write_str(&self.render().map_err(|_| fmt::Error)?)
    }
}

// The number of this package's version, as the library has it.
const VERSION: u32 = 10000 * number(env!("CARGO_PKG_VERSION_MAJOR"))
    + 100 * number(env!("CARGO_PKG_VERSION_MINOR"))
    + number(env!("CARGO_PKG_VERSION_PATCH"));

// Statuses with a place: no UTF-8, an ESC that begins no whole sequence, an open quote.
const NOT_UTF8: u32 = 1;
const ESCAPE: u32 = 2;
const QUOTE: u32 = 10;

fn error_at(refused: &Refused, place: Place) -> Error {
    match refused.status {
        NOT_UTF8 => Error::NotUtf8(place),
        ESCAPE => Error::Escape(place),
        QUOTE => Error::Quote { line: refused.line },
        other => Error::of_status(other),
    }
}

// A number that is requested: the greatest one means none, and no table has as much of anything.
fn at_most(number: usize) -> usize {
    number.min(library::NONE - 1)
}

// The number that these digits write.
const fn number(digits: &str) -> u32 {
    let digits = digits.as_bytes();
    let mut found = 0;
    let mut at = 0;
    while at < digits.len() {
        found = 10 * found + (digits[at] - b'0') as u32;
        at += 1;
    }
    found
}

fn cells_of<C>(cells: C) -> Vec<String>
where
    C: IntoIterator,
    C::Item: ToString,
{
    cells.into_iter().map(|cell| cell.to_string()).collect()
}

//! The calls of the library, as `basinmug.h` declares them: on bytes, with a status.
//!
//! What the header requires of a caller holds of each call below. Slices have an address, also where they are empty, and no
//! length passes `isize::MAX`. `out` and `answer` are borrowed for this call alone.
use std::ffi::c_char;

/// No width, no number of records, no greatest size.
pub const NONE: usize = usize::MAX;
/// No number of records is requested that are read.
pub const NO_HEAD: usize = 0;
/// The text says what separates its fields.
pub const AUTO: u32 = 0;

/// `struct basinmug_print_options`.
#[repr(C)]
#[derive(Clone, Debug)]
pub struct Options {
    pub size: usize,
    pub delimiter: u32,
    pub no_header: u32,
    pub style: u32,
    pub rules: u32,
    pub escapes: u32,
    pub truncate: u32,
    pub priority: u32,
    pub expanded: u32,
    pub all_columns: u32,
    pub reserved: u32,
    pub width: usize,
    pub max_rows: usize,
    pub tail: usize,
    pub max_size: usize,
    pub head: usize,
    pub reserved_words: [u64; 6],
}

impl Default for Options {
    /// `BASINMUG_PRINT_OPTIONS`.
    fn default() -> Options {
        Options {
            size: std::mem::size_of::<Options>(),
            delimiter: AUTO,
            no_header: 0,
            style: 4,
            rules: 0,
            escapes: 0,
            truncate: 0,
            priority: 2,
            expanded: 0,
            all_columns: 0,
            reserved: 0,
            width: NONE,
            max_rows: NONE,
            tail: NONE,
            max_size: NONE,
            head: NO_HEAD,
            reserved_words: [0; 6],
        }
    }
}

/// Lists for single columns, as the program takes them; an empty one is none.
#[derive(Default)]
pub struct Lists {
    pub columns: String,
    pub align: String,
    pub color: String,
}

/// What is requested of a table.
pub struct Request {
    pub options: Options,
    pub lists: Lists,
}

/// `struct basinmug_print_answer`.
#[repr(C)]
#[derive(Default)]
struct PrintAnswer {
    size: usize,
    wider: usize,
    line: usize,
    field: usize,
    row: usize,
    column: usize,
}

/// `struct basinmug_answer`.
#[repr(C)]
#[derive(Default)]
struct Answer {
    size: usize,
    place: usize,
    row: usize,
    column: usize,
}

/// What a call reports that prints nothing. Rows and columns are counted from 0, lines and fields from 1.
#[derive(Default)]
pub struct Refused {
    pub status: u32,
    pub line: usize,
    pub field: usize,
    pub row: usize,
    pub column: usize,
}

/// The status of a lack of memory.
pub const MEMORY: u32 = 5;

extern "C" {
    fn basinmug_print(
        options: &Options,
        columns: *const c_char,
        columns_len: usize,
        align: *const c_char,
        align_len: usize,
        color: *const c_char,
        color_len: usize,
        text: *const c_char,
        text_len: usize,
        out: *mut c_char,
        out_len: usize,
        answer: &mut PrintAnswer,
    ) -> u32;
    fn basinmug_print_cells(
        options: &Options,
        columns: *const c_char,
        columns_len: usize,
        align: *const c_char,
        align_len: usize,
        color: *const c_char,
        color_len: usize,
        cells: *const c_char,
        cells_len: usize,
        lengths: *const usize,
        lengths_len: usize,
        per_record: usize,
        out: *mut c_char,
        out_len: usize,
        answer: &mut PrintAnswer,
    ) -> u32;
    fn basinmug_width(text: *const c_char, text_len: usize, answer: &mut Answer) -> u32;
    fn basinmug_strip(
        text: *const c_char,
        text_len: usize,
        out: *mut c_char,
        out_len: usize,
        answer: &mut Answer,
    ) -> u32;
    fn basinmug_version() -> u32;
}

/// The number of the library's version.
pub fn version() -> u32 {
    unsafe { basinmug_version() }
}

/// The table of a delimited text.
pub fn print_text(request: &Request, text: &[u8]) -> Result<String, Refused> {
    let lists = &request.lists;
    printed(
        request,
        text.len().saturating_mul(4),
        |out, answer| unsafe {
            basinmug_print(
                &request.options,
                lists.columns.as_ptr().cast(),
                lists.columns.len(),
                lists.align.as_ptr().cast(),
                lists.align.len(),
                lists.color.as_ptr().cast(),
                lists.color.len(),
                text.as_ptr().cast(),
                text.len(),
                out.as_mut_ptr().cast(),
                out.len(),
                answer,
            )
        },
    )
}

/// The table of cells: their bytes, how many each has, and how many cells a record has.
pub fn print_cells(
    request: &Request,
    cells: &str,
    lengths: &[usize],
    per_record: usize,
) -> Result<String, Refused> {
    let lists = &request.lists;
    let guess = cells.len().saturating_add(lengths.len().saturating_mul(8));
    printed(request, guess.saturating_mul(2), |out, answer| unsafe {
        basinmug_print_cells(
            &request.options,
            lists.columns.as_ptr().cast(),
            lists.columns.len(),
            lists.align.as_ptr().cast(),
            lists.align.len(),
            lists.color.as_ptr().cast(),
            lists.color.len(),
            cells.as_ptr().cast(),
            cells.len(),
            lengths.as_ptr(),
            lengths.len(),
            per_record,
            out.as_mut_ptr().cast(),
            out.len(),
            answer,
        )
    })
}

/// How many columns a text takes; no `str` is refused.
pub fn width(text: &str) -> usize {
    let mut answer = Answer::default();
    unsafe { basinmug_width(text.as_ptr().cast(), text.len(), &mut answer) };
    answer.size
}

/// A text without its escape sequences.
pub fn strip(text: &str) -> Result<String, Refused> {
    written(text.len(), |out| {
        let mut answer = Answer::default();
        let status = unsafe {
            basinmug_strip(
                text.as_ptr().cast(),
                text.len(),
                out.as_mut_ptr().cast(),
                out.len(),
                &mut answer,
            )
        };
        let refused = Refused {
            status,
            ..Refused::default()
        };
        outcome(answer.size, refused)
    })
}

/// What a call prints, first into memory of so many bytes and some more, but no more than the output may have.
fn printed(
    request: &Request,
    guess: usize,
    print: impl Fn(&mut [u8], &mut PrintAnswer) -> u32,
) -> Result<String, Refused> {
    let memory = guess.saturating_add(1024).min(request.options.max_size);
    written(memory, |out| {
        let mut answer = PrintAnswer::default();
        let status = print(out, &mut answer);
        let refused = Refused {
            status,
            line: answer.line,
            field: answer.field,
            row: answer.row,
            column: answer.column,
        };
        outcome(answer.size, refused)
    })
}

/// The size of an output, or the refusal where the status says one.
fn outcome(size: usize, refused: Refused) -> Result<usize, Refused> {
    if refused.status == 0 {
        Ok(size)
    } else {
        Err(refused)
    }
}

/// What a call writes. It is called once more where the first call reports more bytes than its memory holds.
fn written(
    mut memory: usize,
    write: impl Fn(&mut [u8]) -> Result<usize, Refused>,
) -> Result<String, Refused> {
    loop {
        let mut out = zeros(memory)?;
        let size = write(&mut out)?;
        if size <= memory {
            out.truncate(size);
            return Ok(String::from_utf8(out).expect("what is written of a text is a text"));
        }
        memory = size;
    }
}

/// So many bytes, or a lack of memory.
fn zeros(memory: usize) -> Result<Vec<u8>, Refused> {
    let mut out = Vec::new();
    if out.try_reserve_exact(memory).is_err() {
        return Err(Refused {
            status: MEMORY,
            ..Refused::default()
        });
    }
    out.resize(memory, 0);
    Ok(out)
}

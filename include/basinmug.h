/*
 * Tables of text, for programs in C and whatever calls C: `basinmug_print` prints records as the program `basinmug`
 * does, `basinmug_table` tab-separated text as the program `columns` does.
 *
 * A text is UTF-8.
 *
 * What a caller owes, and nothing checks:
 *
 * - No pointer is null, also if its length is 0: give any address then, as that of an empty string. The library takes
 *   a pointer with its length as a slice, and no slice begins at null.
 * - Each pointer to a struct points to a whole one, and each pointer to an array to as many elements as its length
 *   says. No array has more than PTRDIFF_MAX bytes.
 * - During a call nothing else writes what it reads, and nothing else reads or writes what `out` and `answer` point
 *   to. None of the last two overlaps another argument.
 * - A call has 512 KiB of stack. With less the process may end by SIGSEGV.
 * - malloc, realloc and free come from one allocator. No function is called from a signal handler, nor in the child of
 *   a fork of a process with threads.
 *
 * Threads may call at the same time, each with memory of its own. The library keeps nothing between calls, starts no
 * thread, and reads and writes no file.
 */
#ifndef BASINMUG_H
#define BASINMUG_H

#include <stddef.h>
#include <stdint.h>

#ifdef __cplusplus
extern "C" {
#endif

/* The version of this header: 10000 times its first number, 100 times its second, and its third. */
#define BASINMUG_VERSION 100

/* ---- numbers that both tables share */

/* The width of a table that may be as wide as its text. */
#define BASINMUG_NO_WIDTH SIZE_MAX

/* The lines of a table: of - | and +, light, double, none at all; light ones with round corners, Markdown. */
enum {
    BASINMUG_ASCII = 0,
    BASINMUG_MODERN = 1,
    BASINMUG_EXTENDED = 2,
    BASINMUG_EMPTY = 3,
    BASINMUG_ROUNDED = 4, /* of basinmug_print alone */
    BASINMUG_MARKDOWN = 5 /* of basinmug_print alone */
};

/*
 * Priorities: which column gives up width first if the table is made narrower. Each in turn, the narrowest, the
 * widest, the leftmost, the rightmost. Of equally wide columns it is the right one in basinmug_print, the left one in
 * basinmug_table.
 */
enum {
    BASINMUG_IN_TURN = 0,
    BASINMUG_NARROWEST = 1,
    BASINMUG_WIDEST = 2,
    BASINMUG_LEFTMOST = 3,
    BASINMUG_RIGHTMOST = 4
};

/* Statuses. Memory may run out at any step. */
enum {
    BASINMUG_OK = 0,

    /* The text or the cells have no output. */
    BASINMUG_NOT_UTF8 = 1,       /* it is not UTF-8 */
    BASINMUG_ESCAPE = 2,         /* an ESC begins no whole sequence */
    BASINMUG_RANGE = 3,          /* a width, a height or a total of the table passes SIZE_MAX */
    BASINMUG_LINE_TOO_WIDE = 4,  /* a line of a cell is wider than its column; proved never to come */
    BASINMUG_MEMORY = 5,         /* malloc or realloc gave none */
    BASINMUG_TOO_LONG = 6,       /* the text of basinmug_table has 2 to the power of 40 bytes or more */
    BASINMUG_READ = 7,           /* reading the text failed; reading memory never does */
    BASINMUG_WRITE = 8,          /* writing failed; writing memory never does */
    BASINMUG_WRITE_ZERO = 9,     /* the same */
    BASINMUG_QUOTE = 10,         /* a quote that opens a field is not closed */
    BASINMUG_NO_COLUMN = 11,     /* a list has a name of no column, or `columns` a number of none */
    BASINMUG_SPANS = 12,         /* cells of a table overlap; never comes of records */
    BASINMUG_OVER_MAX_SIZE = 13, /* the output has more bytes than `max_size` */

    /*
     * A number of the options has no meaning. The options are checked before all else. Of several errors the first in
     * this order is reported: VERSION, DELIMITER, NO_HEADER, STYLE, RULES, ESCAPES, TRUNCATE, PRIORITY, EXPANDED,
     * ALL_COLUMNS, WIDTH, HEAD, RESERVED; of basinmug_table: VERSION, STYLE, PRIORITY, TRUNCATE, KEEP_WORDS, RESERVED.
     */
    BASINMUG_BAD_VERSION = 33, /* or the size of the options */
    BASINMUG_BAD_STYLE = 34,
    BASINMUG_BAD_PRIORITY = 35,
    BASINMUG_BAD_TRUNCATE = 36,
    BASINMUG_BAD_KEEP_WORDS = 37,
    BASINMUG_BAD_RESERVED = 38,
    BASINMUG_BAD_DELIMITER = 40,
    BASINMUG_BAD_NO_HEADER = 41,
    BASINMUG_BAD_RULES = 42,
    BASINMUG_BAD_ESCAPES = 43,
    BASINMUG_BAD_EXPANDED = 44,
    BASINMUG_BAD_WIDTH = 45, /* a table of Markdown takes no width */
    BASINMUG_BAD_ALL_COLUMNS = 48,
    BASINMUG_BAD_HEAD = 50, /* `head` with `tail` */

    /* The lengths of cells are not those of whole records, or not those of all bytes. They are checked before the cells. */
    BASINMUG_BAD_CELLS = 49,

    /* A list is malformed. Lists are checked after the options and before the text, in the order columns, align, color. */
    BASINMUG_BAD_COLORS = 39,
    BASINMUG_BAD_ALIGN = 46,
    BASINMUG_BAD_COLUMNS = 47
};

/* ---- records, as the program `basinmug` prints them */

/* Between which rows there is a line: below the header alone, between each two rows, between none. */
enum { BASINMUG_RULES_HEADER = 0, BASINMUG_RULES_ALL = 1, BASINMUG_RULES_NONE = 2 };

/*
 * Which escape sequences of the text stay: those of colours, all, none. Of any other the escape is shown, but with those of
 * colours ESC [ K, ESC [ 0 K and ESC ( B go.
 */
enum { BASINMUG_ESCAPES_COLORS = 0, BASINMUG_ESCAPES_ALL = 1, BASINMUG_ESCAPES_NONE = 2 };

/* The delimiter of a text of which the first line says what it is, as with --delimiter auto. */
#define BASINMUG_AUTO 0

/* No number of first records is requested: all are shown, or with `tail` the last ones alone. */
#define BASINMUG_ALL_ROWS SIZE_MAX

/* No number of last records is requested. */
#define BASINMUG_NO_TAIL SIZE_MAX

/* All records are read. */
#define BASINMUG_NO_HEAD 0

/* Output of any size. Without a greatest size a table may have many times the bytes of its text. */
#define BASINMUG_ANY_SIZE SIZE_MAX

/* What is requested of basinmug_print. Begin with BASINMUG_PRINT_OPTIONS, and then set what is to differ. */
struct basinmug_print_options {
    size_t size;                /* sizeof (struct basinmug_print_options); a later header may have another one */
    uint32_t delimiter;         /* the byte between fields, of ASCII, no quote, LF or CR; or BASINMUG_AUTO */
    uint32_t no_header;         /* 1 if the first record is no header, 0 if it is one */
    uint32_t style;             /* BASINMUG_ROUNDED and so on */
    uint32_t rules;             /* BASINMUG_RULES_HEADER and so on */
    uint32_t escapes;           /* BASINMUG_ESCAPES_COLORS and so on */
    uint32_t truncate;          /* 1 to cut off what passes the width, 0 to wrap lines */
    uint32_t priority;          /* BASINMUG_WIDEST and so on; without a width it does nothing */
    uint32_t expanded;          /* 1 for records one below the other, each field on lines of its own; 0 for a table */
    uint32_t all_columns;       /* 1 to show all columns, 0 to leave out those that do not fit the width */
    uint32_t reserved;          /* 0 */
    size_t width;               /* the greatest width of the table, in columns; or BASINMUG_NO_WIDTH */
    size_t max_rows;            /* how many of the first records are shown at most; or BASINMUG_ALL_ROWS */
    size_t tail;                /* how many of the last records are shown at most; or BASINMUG_NO_TAIL */
    size_t max_size;            /* how many bytes the output may have; or BASINMUG_ANY_SIZE */
    size_t head;                /* how many records below the header are read at most; or BASINMUG_NO_HEAD */
    uint64_t reserved_words[6]; /* 0, each of them */
};

/* As the program prints with no options, but as wide as its text. */
#define BASINMUG_PRINT_OPTIONS \
    { sizeof(struct basinmug_print_options), BASINMUG_AUTO, 0, BASINMUG_ROUNDED, BASINMUG_RULES_HEADER, \
      BASINMUG_ESCAPES_COLORS, 0, BASINMUG_WIDEST, 0, 0, 0, BASINMUG_NO_WIDTH, BASINMUG_ALL_ROWS, BASINMUG_NO_TAIL, \
      BASINMUG_ANY_SIZE, BASINMUG_NO_HEAD, { 0, 0, 0, 0, 0, 0 } }

/* What is reported beside a status of basinmug_print. A number that the status says nothing of is 0. */
struct basinmug_print_answer {
    size_t size;   /* BASINMUG_OK: how many bytes the whole output has */
    size_t wider;  /* BASINMUG_OK: 1 if the table is wider than requested */
    size_t line;   /* BASINMUG_NOT_UTF8, BASINMUG_ESCAPE, BASINMUG_QUOTE: the line of the error, from 1; a line feed ends a line */
    size_t field;  /* BASINMUG_NOT_UTF8, BASINMUG_ESCAPE: its field in the record, from 1 */
    size_t row;    /* BASINMUG_LINE_TOO_WIDE: the row of the cell, from 0; of basinmug_print_cells also
                      BASINMUG_NOT_UTF8 and BASINMUG_ESCAPE, which then have no line and no field */
    size_t column; /* and its column, from 0 */
};

/*
 * Prints the records of a delimited text, as the program `basinmug` does: with a header, in a width, with lists for
 * single columns, and with sequences and control characters made harmless unless `escapes` says otherwise.
 *
 * A list has the form that the program takes: `columns` that of --columns, as "2,0,4-6"; `align` that of --align, as
 * "0=right,price=center"; `color` that of --color, as "0=bold,price=red". A list of length 0 is none.
 *
 * It writes the output from the start of `out`, as many of its bytes as fit in `out_len`, and returns a status. The
 * answer reports how many bytes the whole output has. So a call with an `out_len` of 0 counts them, and the output is
 * never held in memory besides. Each line of it ends with a line feed; no zero byte follows it. What `out` holds after
 * the output stays as it was. After another status than BASINMUG_OK all of `out` is as it was, except after
 * BASINMUG_MEMORY and BASINMUG_OVER_MAX_SIZE: then it may hold a prefix of the output, from its start.
 *
 * The output is over the greatest size if it has more bytes than `max_size`, or SIZE_MAX of them. The call then ends
 * as soon as it passes that size.
 *
 * With a `head` the text is read as if it ended after so many records below the header, as the program reads it with
 * --head: what is after them is neither counted nor an error. SIZE_MAX has no meaning of its own. For the header alone,
 * as with --head 0, there is no number.
 */
uint32_t basinmug_print(const struct basinmug_print_options *options, const char *columns, size_t columns_len,
                        const char *align, size_t align_len, const char *color, size_t color_len, const char *text,
                        size_t text_len, char *out, size_t out_len, struct basinmug_print_answer *answer);

/*
 * The same, of records as cells, which nobody has to quote. `cells` has the bytes of all cells, one after another, record
 * by record; `lengths` says how many bytes each has, and `per_record` how many cells a record has. A cell may have any text,
 * also line feeds, tabs and quotes. `delimiter` must have a meaning, and has no effect.
 *
 * Before the cells are read their lengths are checked: there are as many as whole records have, and together they are
 * `cells_len`. BASINMUG_NOT_UTF8 and BASINMUG_ESCAPE report the first cell with an error, and nothing is written. With
 * a `head` all lengths are checked, and of the cells those of the first records alone are read.
 */
uint32_t basinmug_print_cells(const struct basinmug_print_options *options, const char *columns, size_t columns_len,
                              const char *align, size_t align_len, const char *color, size_t color_len,
                              const char *cells, size_t cells_len, const size_t *lengths, size_t lengths_len,
                              size_t per_record, char *out, size_t out_len, struct basinmug_print_answer *answer);

/* ---- tab-separated text, as the program `columns` prints it */

/*
 * A line feed ends a row and a tab ends a cell. Colours and other escape sequences are kept: none is open where a line
 * of the table ends, except what codes with colons set (ESC [ 4 : 3 m) and unknown codes, which no line closes.
 */

/* The first number of `struct basinmug_options`. A later header may have another one. */
#define BASINMUG_OPTIONS_VERSION 1

/* What is requested of a table. Begin with BASINMUG_OPTIONS, and then set what is to differ. */
struct basinmug_options {
    uint32_t version;           /* BASINMUG_OPTIONS_VERSION */
    uint32_t style;             /* BASINMUG_ASCII, BASINMUG_MODERN, BASINMUG_EXTENDED or BASINMUG_EMPTY */
    size_t width;               /* the greatest width of the table, in columns; or BASINMUG_NO_WIDTH */
    uint32_t priority;          /* BASINMUG_IN_TURN and so on; without a width it does nothing */
    uint32_t truncate;          /* 1 to cut off what passes the width, 0 to wrap lines */
    uint32_t keep_words;        /* 1 to wrap lines between words where they can be, 0 to wrap them anywhere */
    uint32_t reserved;          /* 0 */
    uint64_t max_size;          /* how many bytes the table may have; or 0, for any number */
    uint64_t reserved_words[3]; /* 0, each of them */
};

/* As wide as the text, in ASCII. */
#define BASINMUG_OPTIONS \
    { BASINMUG_OPTIONS_VERSION, BASINMUG_ASCII, BASINMUG_NO_WIDTH, BASINMUG_IN_TURN, 0, 0, 0, 0, { 0, 0, 0 } }

/* What is reported beside a status of the calls below. A number that the status says nothing of is 0. */
struct basinmug_answer {
    size_t size;   /* BASINMUG_OK: how many bytes the whole table or text has; of basinmug_width, how many columns */
    size_t place;  /* BASINMUG_NOT_UTF8: the length of the longest prefix of the text that is; BASINMUG_ESCAPE: the byte of
                      the ESC, from 0 */
    size_t row;    /* BASINMUG_LINE_TOO_WIDE: the row of the cell, from 0 */
    size_t column; /* and its column, from 0 */
};

/*
 * Writes the table from the start of `out`, as many of its bytes as fit in `out_len`, and returns a status. The answer
 * reports how many bytes the whole table has, so that a caller may call again with more memory. Each line of it ends
 * with a line feed; no zero byte follows it. A text without rows has an empty table. What `out` holds after the table
 * stays as it was; if the status is not BASINMUG_OK all of it does. BASINMUG_TOO_LONG comes before all other errors of
 * a text; else, of several errors of a kind, the first is reported.
 *
 * The table is held in memory until it is whole, and may have many times the bytes of its text. With a `max_size` no more
 * than so many bytes are held: a table that has more ends the call by BASINMUG_OVER_MAX_SIZE as soon as it passes them, and
 * nothing is written.
 */
uint32_t basinmug_table(const struct basinmug_options *options, const char *text, size_t text_len, char *out,
                        size_t out_len, struct basinmug_answer *answer);

/*
 * The same, with the colours of a list for its columns, as the program takes it with --color: items separated by
 * commas, each a column, '=' and a name, as "0=bold,2=red". Columns are counted from 0, in decimal digits alone, up to
 * 4294967295, and none comes twice; one that the table lacks does nothing. The names are black, red, green, yellow,
 * blue, magenta, cyan, white, bold and underline. An empty list is malformed. A colour is put around each line of
 * a cell that has bytes.
 */
uint32_t basinmug_colored_table(const struct basinmug_options *options, const char *colors, size_t colors_len,
                                const char *text, size_t text_len, char *out, size_t out_len,
                                struct basinmug_answer *answer);

/* ---- texts */

/*
 * Reports how many columns the widest line of a text takes in a terminal, without its escape sequences. The status is
 * BASINMUG_OK or BASINMUG_NOT_UTF8. A tab counts as any control character does. Nothing is allocated.
 */
uint32_t basinmug_width(const char *text, size_t text_len, struct basinmug_answer *answer);

/*
 * Writes a text without its escape sequences, as many of its bytes as fit in `out_len`, as basinmug_table writes a
 * table: the answer reports how many bytes the whole has. Of a sequence that is not whole the ESC alone is left out.
 * The status is BASINMUG_OK, BASINMUG_NOT_UTF8 or BASINMUG_MEMORY.
 */
uint32_t basinmug_strip(const char *text, size_t text_len, char *out, size_t out_len, struct basinmug_answer *answer);

/* The version of the library, in the form of BASINMUG_VERSION. */
uint32_t basinmug_version(void);

#ifdef __cplusplus
}
#endif

#endif

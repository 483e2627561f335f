/* What the work costs at least: a plain pass in C over tab-separated ASCII, which prints the same table
   as `columns` does. It takes each byte for one column, trusts its memory and its output, checks
   nothing, and is here only to be counted beside the program that does. */
#include <stdlib.h>
#include <string.h>
#include <unistd.h>

enum { COLUMNS = 1 << 16, PIECE = 1 << 20 };

static size_t widths[COLUMNS];

/* Where the cell ends that begins here: at its tab, or where its row ends. */
static const char *end_of_cell(const char *cell, const char *row_end) {
    const char *tab = memchr(cell, '\t', (size_t)(row_end - cell));
    return tab ? tab : row_end;
}

static const char *end_of_row(const char *row, const char *end) {
    return memchr(row, '\n', (size_t)(end - row));
}

int main(void) {
    size_t room = PIECE, length = 0;
    char *text = malloc(room + 1);
    for (ssize_t got; (got = read(0, text + length, room - length)) > 0;) {
        length += (size_t)got;
        if (length == room) text = realloc(text, (room *= 2) + 1);
    }
    if (length == 0) return 0;
    if (text[length - 1] != '\n') text[length++] = '\n';
    const char *end = text + length;

    size_t columns = 0;
    for (const char *cell = text; cell < end; cell++) {
        const char *row_end = end_of_row(cell, end);
        for (size_t column = 0;; column++, cell++) {
            const char *cell_end = end_of_cell(cell, row_end);
            size_t width = (size_t)(cell_end - cell);
            if (width > widths[column]) widths[column] = width;
            if (column == columns) columns++;
            cell = cell_end;
            if (cell == row_end) break;
        }
    }

    size_t line = 2;
    for (size_t column = 0; column < columns; column++) line += widths[column] + 3;
    char *border = malloc(line), *at = border;
    for (size_t column = 0; column < columns; column++) {
        *at++ = '+';
        memset(at, '-', widths[column] + 2);
        at += widths[column] + 2;
    }
    memcpy(at, "+\n", 2);

    char *out = malloc(PIECE + 2 * line), *to = out;
    memcpy(to, border, line);
    to += line;
    for (const char *cell = text; cell < end; cell++) {
        const char *row_end = end_of_row(cell, end);
        for (size_t column = 0; column < columns; column++) {
            const char *cell_end = end_of_cell(cell, row_end);
            size_t width = (size_t)(cell_end - cell);
            *to++ = '|';
            *to++ = ' ';
            memcpy(to, cell, width);
            memset(to + width, ' ', widths[column] + 1 - width);
            to += widths[column] + 1;
            cell = cell_end < row_end ? cell_end + 1 : row_end;
        }
        memcpy(to, "|\n", 2);
        memcpy(to + 2, border, line);
        to += 2 + line;
        if (to - out >= PIECE || cell + 1 >= end) {
            for (const char *from = out; from < to;) {
                ssize_t took = write(1, from, (size_t)(to - from));
                if (took <= 0) return 1;
                from += took;
            }
            to = out;
        }
    }
    return 0;
}

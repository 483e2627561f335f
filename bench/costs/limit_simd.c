/* What the work costs at least with vectors: the table that limit.c makes, and as little is checked. The
   ends of cells are found thirty-two bytes at a time; a row and the border below it begin as a copy of
   those of an empty row, and each text is laid over its place, sixteen bytes at a time where it is short.
   It wants a processor of the level x86-64-v3. */
#include <immintrin.h>
#include <stdint.h>
#include <stdlib.h>
#include <string.h>
#include <unistd.h>

enum { COLUMNS = 1 << 12, PIECE = 1 << 18, STEP = 32, SHORT = 16 };

/* This bit of the end of a cell says that its row ends too. */
#define LAST ((uint32_t)1 << 31)

static uint32_t widths[COLUMNS];
static size_t places[COLUMNS];

/* A bit for each of these bytes that is the wanted one. */
static inline uint32_t found(__m256i bytes, char wanted) {
    return (uint32_t)_mm256_movemask_epi8(_mm256_cmpeq_epi8(bytes, _mm256_set1_epi8(wanted)));
}

static inline void lay_over(char *to, const char *text, size_t width) {
    if (width > SHORT) {
        memcpy(to, text, width);
        return;
    }
    const __m128i numbers = _mm_setr_epi8(0, 1, 2, 3, 4, 5, 6, 7, 8, 9, 10, 11, 12, 13, 14, 15);
    __m128i taken = _mm_cmpgt_epi8(_mm_set1_epi8((char)width), numbers);
    __m128i under = _mm_loadu_si128((const void *)to), over = _mm_loadu_si128((const void *)text);
    _mm_storeu_si128((void *)to, _mm_blendv_epi8(under, over, taken));
}

static void write_all(const char *from, const char *to) {
    while (from < to) {
        ssize_t took = write(1, from, (size_t)(to - from));
        if (took <= 0) exit(1);
        from += took;
    }
}

int main(void) {
    size_t room = 1 << 22, length = 0;
    char *text = malloc(room + 2 * STEP);
    for (ssize_t got; (got = read(0, text + length, room - length)) > 0;) {
        length += (size_t)got;
        if (length == room) text = realloc(text, (room *= 2) + 2 * STEP);
    }
    if (length == 0) return 0;
    if (text[length - 1] != '\n') text[length++] = '\n';
    memset(text + length, ' ', STEP);

    size_t count = 0, space = length / 2 + STEP, columns = 0, column = 0, begin = 0;
    uint32_t *ends = malloc(space * sizeof *ends);
    for (size_t at = 0; at < length; at += STEP) {
        __m256i bytes = _mm256_loadu_si256((const void *)(text + at));
        uint32_t feeds = found(bytes, '\n');
        if (count + STEP > space) ends = realloc(ends, (space *= 2) * sizeof *ends);
        for (uint32_t left = feeds | found(bytes, '\t'); left != 0; left &= left - 1) {
            unsigned lane = (unsigned)__builtin_ctz(left);
            uint32_t end = (uint32_t)(at + lane), width = end - (uint32_t)begin, is_last = feeds >> lane & 1;
            if (width > widths[column]) widths[column] = width;
            ends[count++] = end | is_last << 31;
            begin = end + 1;
            column++;
            if (is_last) {
                if (column > columns) columns = column;
                column = 0;
            }
        }
    }

    size_t line = 2;
    for (column = 0; column < columns; column++) line += widths[column] + 3;
    char *empty = malloc(2 * line), *border = empty + line, *at = empty;
    for (column = 0; column < columns; column++) {
        size_t cell = (size_t)(at - empty);
        places[column] = cell + 2;
        memcpy(at, "| ", 2);
        memset(at + 2, ' ', widths[column] + 1);
        border[cell] = '+';
        memset(border + cell + 1, '-', widths[column] + 2);
        at += widths[column] + 3;
    }
    memcpy(at, "|\n", 2);
    memcpy(border + line - 2, "+\n", 2);

    char *out = malloc(PIECE + 3 * line + SHORT), *row = out + line;
    memcpy(out, border, line);
    memcpy(row, empty, 2 * line);
    begin = column = 0;
    for (size_t cell = 0; cell < count; cell++) {
        size_t end = ends[cell] & ~LAST;
        lay_over(row + places[column], text + begin, end - begin);
        begin = end + 1;
        column++;
        if (ends[cell] & LAST) {
            row += 2 * line;
            column = 0;
            if (row - out >= PIECE) {
                write_all(out, row);
                row = out;
            }
            if (cell + 1 < count) memcpy(row, empty, 2 * line);
        }
    }
    write_all(out, row);
    return 0;
}

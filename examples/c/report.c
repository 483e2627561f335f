/*
 * Prints records as a table of at most 60 columns, of which the first is bold and the hours are red. Where the library is
 * installed, and found after `ldconfig` or by LD_LIBRARY_PATH:
 *
 *     cc -o report report.c -lbasinmug && ./report
 */
#include <basinmug.h>
#include <stdio.h>
#include <stdlib.h>
#include <string.h>

#define COLUMNS 5

/* The header and three records. A cell may have quotes and line feeds. */
static const char *const CELLS[] = {
    "id", "date", "author", "note", "hours",
    "1", "2026-11-02", "Ada Lovelace",
    "The analytical engine weaves algebraical patterns just as the loom weaves flowers and leaves.", "3.5",
    "2", "2026-11-03", "関孝和", "東京で書いた、長い覚え書き。表の端はまっすぐ。", "12.25",
    "3", "2026-11-04", "Grace Hopper", "She said \"ship it\" 🚀\nand it shipped.", "0.75",
};
#define COUNT (sizeof CELLS / sizeof *CELLS)

/* Prints these cells into `out`, as many bytes as fit there. */
static uint32_t print_cells(const char *cells, const size_t *lengths, char *out, size_t out_len, struct basinmug_print_answer *answer) {
    const char *color = "0=bold,hours=red";
    size_t size = 0;
    struct basinmug_print_options options = BASINMUG_PRINT_OPTIONS;
    options.width = 60;
    for (size_t at = 0; at < COUNT; at++) size += lengths[at];
    return basinmug_print_cells(&options, "", 0, "", 0, color, strlen(color), cells, size, lengths, COUNT, COLUMNS, out, out_len, answer);
}

int main(void) {
    /* The bytes of all cells, one after another, and how many each has. */
    char cells[1024];
    size_t lengths[COUNT], size = 0;
    for (size_t at = 0; at < COUNT; at++) {
        lengths[at] = strlen(CELLS[at]);
        if (lengths[at] > sizeof cells - size) return 1;
        memcpy(cells + size, CELLS[at], lengths[at]);
        size += lengths[at];
    }

    /* A guess at the size first; if the table has more bytes, once again with as many. */
    size_t room = 512;
    char *table = malloc(room);
    struct basinmug_print_answer answer = {0, 0, 0, 0, 0, 0};
    uint32_t status = BASINMUG_MEMORY;
    if (table != NULL) status = print_cells(cells, lengths, table, room, &answer);
    if (status == BASINMUG_OK && answer.size > room) {
        room = answer.size;
        free(table);
        table = malloc(room);
        status = BASINMUG_MEMORY;
        if (table != NULL) status = print_cells(cells, lengths, table, room, &answer);
    }
    if (status == BASINMUG_OK) {
        fwrite(table, 1, answer.size, stdout);
    } else {
        fprintf(stderr, "report: status %u in row %zu, column %zu\n", (unsigned)status, answer.row, answer.column);
    }
    free(table);
    return status != BASINMUG_OK;
}

/*
 * Calls the library from C, with memory of exactly the sizes that it is given, and ends with the number of the line of the
 * first check that fails, or 0. malloc and realloc of the library are those below, which can refuse one call.
 */
#include "basinmug.h"

#include <pthread.h>
#include <stdlib.h>
#include <string.h>

#define CHECK(holds) do { if (!(holds)) return __LINE__; } while (0)

static const char TEXT[] = "a\tb\n1\t\033[31m234\033[0m\n";
static const char TABLE[] = "+---+-----+\n| a | b   |\n+---+-----+\n| 1 | \033[31m234\033[0m |\n+---+-----+\n";

static const char COLORS[] = "1=red,0=bold";
static const char COLORED[] = "+---+-----+\n| \033[1ma\033[22m | \033[31mb\033[39m   |\n+---+-----+\n| \033[1m1\033[22m | \033[31m\033[31m234\033[0m\033[39m |\n+---+-----+\n";
static const char BARE[] = "+---+-----+\n| a | b   |\n+---+-----+\n| 1 | 234 |\n+---+-----+\n";

static int counts;
static unsigned long calls, refused_call, refused;
static size_t greatest;

void *__real_malloc(size_t size);
void *__real_realloc(void *old, size_t size);

static int refuses(size_t size) {
    if (size > greatest) greatest = size;
    if (!counts || ++calls != refused_call) return 0;
    refused++;
    return 1;
}

void *__wrap_malloc(size_t size) { return refuses(size) ? NULL : __real_malloc(size); }
void *__wrap_realloc(void *old, size_t size) { return refuses(size) ? NULL : __real_realloc(old, size); }

/* A copy of bytes that has no byte more. */
static char *copied(const char *bytes, size_t size) {
    char *copy = __real_malloc(size ? size : 1);
    memcpy(copy, bytes, size);
    return copy;
}

/* Each buffer from none to four bytes more than the table has. */
static int rooms(void) {
    const size_t whole = strlen(TABLE);
    char *text = copied(TEXT, strlen(TEXT));
    struct basinmug_options options = BASINMUG_OPTIONS;
    for (size_t room = 0; room <= whole + 4; room++) {
        struct basinmug_answer answer = {1, 1, 1, 1};
        char *out = __real_malloc(room ? room : 1);
        memset(out, '#', room ? room : 1);
        CHECK(basinmug_table(&options, text, strlen(TEXT), out, room, &answer) == BASINMUG_OK);
        CHECK(answer.size == whole && answer.place == 0 && answer.row == 0 && answer.column == 0);
        CHECK(memcmp(out, TABLE, room < whole ? room : whole) == 0);
        for (size_t at = whole; at < room; at++) CHECK(out[at] == '#');
        CHECK(room != 0 || out[0] == '#');
        free(out);
    }
    free(text);
    return 0;
}

/* A table of many more bytes than its text. No request of memory is for more than its greatest size, unless that is less
 * than what the text and a line of the table take; and a smaller size is refused. */
static int sizes(void) {
    enum { ROWS = 64, COLUMN = 4096, LINE = COLUMN + 5, LEAST = 4 * LINE };
    const size_t size = COLUMN - 1 + 2 * ROWS, whole = (size_t)LINE * (2 * ROWS + 1);
    const size_t sizes[] = {1, LINE, LEAST, whole / 2, whole - 1, whole, whole + 1};
    char *text = __real_malloc(size), *out = __real_malloc(whole);
    memset(text, 'x', size);
    for (size_t at = COLUMN; at < size; at += 2) text[at] = '\n';
    struct basinmug_options options = BASINMUG_OPTIONS;
    for (size_t at = 0; at < sizeof sizes / sizeof *sizes; at++) {
        const int fits = sizes[at] >= whole;
        struct basinmug_answer answer = {1, 1, 1, 1};
        memset(out, '#', whole);
        options.max_size = sizes[at], greatest = 0;
        CHECK(basinmug_table(&options, text, size, out, whole, &answer) == (fits ? BASINMUG_OK : BASINMUG_OVER_MAX_SIZE));
        CHECK(answer.size == (fits ? whole : 0) && answer.place == 0 && answer.row == 0 && answer.column == 0);
        CHECK(out[0] == (fits ? '+' : '#') && out[whole - 1] == (fits ? '\n' : '#'));
        CHECK(greatest <= (sizes[at] < LEAST ? LEAST : sizes[at]));
    }
    free(text);
    free(out);
    return 0;
}

/* A table, a table in colours, a text without its sequences. */
static uint32_t table(char *out, size_t room, struct basinmug_answer *answer) {
    struct basinmug_options options = BASINMUG_OPTIONS;
    options.width = 9;
    return basinmug_table(&options, TEXT, strlen(TEXT), out, room, answer);
}

static uint32_t limited_table(char *out, size_t room, struct basinmug_answer *answer) {
    struct basinmug_options options = BASINMUG_OPTIONS;
    options.max_size = strlen(TABLE);
    return basinmug_table(&options, TEXT, strlen(TEXT), out, room, answer);
}

static uint32_t colored_table(char *out, size_t room, struct basinmug_answer *answer) {
    struct basinmug_options options = BASINMUG_OPTIONS;
    return basinmug_colored_table(&options, COLORS, strlen(COLORS), TEXT, strlen(TEXT), out, room, answer);
}

static uint32_t stripped(char *out, size_t room, struct basinmug_answer *answer) {
    return basinmug_strip(TEXT, strlen(TEXT), out, room, answer);
}

/* Each allocation of a call refused in turn: memory, nothing written, and nothing said beside it. */
static int refusals(uint32_t (*call)(char *, size_t, struct basinmug_answer *), unsigned long least) {
    unsigned long at = 0;
    do {
        CHECK(++at < 10000);
        struct basinmug_answer answer = {1, 1, 1, 1};
        char out[64];
        memset(out, '#', sizeof out);
        calls = 0, refused = 0, refused_call = at, counts = 1;
        uint32_t status = call(out, sizeof out, &answer);
        counts = 0;
        CHECK(status == (refused ? BASINMUG_MEMORY : BASINMUG_OK));
        if (refused) {
            CHECK(answer.size == 0 && answer.place == 0 && answer.row == 0 && answer.column == 0);
            for (size_t i = 0; i < sizeof out; i++) CHECK(out[i] == '#');
        }
    } while (refused);
    CHECK(at > least);
    return 0;
}

/* Colours around the cells that have text; a malformed list; nothing allocated for a width. */
static int colors(void) {
    char out[256];
    struct basinmug_answer answer = {1, 1, 1, 1};
    char *list = copied(COLORS, strlen(COLORS)), *text = copied(TEXT, strlen(TEXT));
    struct basinmug_options options = BASINMUG_OPTIONS;
    CHECK(basinmug_colored_table(&options, list, strlen(COLORS), text, strlen(TEXT), out, sizeof out, &answer) == BASINMUG_OK);
    CHECK(answer.size == strlen(COLORED) && memcmp(out, COLORED, answer.size) == 0);
    CHECK(basinmug_strip(out, answer.size, out + 200, 20, &answer) == BASINMUG_OK && answer.size == strlen(BARE));
    CHECK(memcmp(out + 200, BARE, 20) == 0);
    CHECK(basinmug_colored_table(&options, list, strlen(COLORS) - 1, text, strlen(TEXT), out, sizeof out, &answer) == BASINMUG_BAD_COLORS);
    CHECK(answer.size == 0 && answer.place == 0 && memcmp(out, COLORED, strlen(COLORED)) == 0);
    calls = 0, refused = 0, refused_call = 1, counts = 1;
    uint32_t status = basinmug_width(text, strlen(TEXT), &answer);
    counts = 0;
    CHECK(status == BASINMUG_OK && answer.size == 5 && calls == 0);
    free(list);
    free(text);
    return 0;
}

/* Many tables of one thread; its text has as many rows as its number says. */
static void *many(void *given) {
    const long rows = (long)(size_t)given;
    char text[64], out[2048];
    size_t size = 0;
    for (long row = 0; row < rows; row++) size += (memcpy(text + size, "x\ty\n", 4), 4);
    struct basinmug_options options = BASINMUG_OPTIONS;
    for (int time = 0; time < 500; time++) {
        struct basinmug_answer answer;
        memset(out, 0, sizeof out);
        if (basinmug_table(&options, text, size, out, sizeof out, &answer) != BASINMUG_OK) return given;
        if (answer.size != (size_t)(10 * (2 * rows + 1))) return given;
        for (long line = 0; line <= 2 * rows; line++)
            if (memcmp(out + 10 * line, line % 2 ? "| x | y |\n" : "+---+---+\n", 10)) return given;
    }
    return NULL;
}

static int threads(void) {
    pthread_t all[4];
    for (size_t at = 0; at < 4; at++) CHECK(pthread_create(&all[at], NULL, many, (void *)(at + 1)) == 0);
    for (size_t at = 0; at < 4; at++) {
        void *failed = &all;
        CHECK(pthread_join(all[at], &failed) == 0 && failed == NULL);
    }
    return 0;
}

static const char RECORDS[] = "name,n\nab,1\n";
static const char CELLS[] = "namenab1";
static const size_t LENGTHS[] = {4, 1, 2, 1};
static const char PRINTED[] = "+------+---+\n| name | n |\n+------+---+\n| ab   | 1 |\n+------+---+\n";

/* Records of a text, and the same as cells, in ASCII. */
static uint32_t printed(char *out, size_t room, struct basinmug_print_answer *answer) {
    struct basinmug_print_options options = BASINMUG_PRINT_OPTIONS;
    options.style = BASINMUG_ASCII;
    return basinmug_print(&options, "", 0, "0=left", 6, "", 0, RECORDS, strlen(RECORDS), out, room, answer);
}

static uint32_t printed_cells(char *out, size_t room, struct basinmug_print_answer *answer) {
    struct basinmug_print_options options = BASINMUG_PRINT_OPTIONS;
    options.style = BASINMUG_ASCII;
    return basinmug_print_cells(&options, "", 0, "", 0, "", 0, CELLS, strlen(CELLS), LENGTHS, 4, 2, out, room, answer);
}

/* Memory of each size from none to four bytes more than the output has; and each allocation refused in turn: the answer is
 * empty, and a prefix of the output may be written. */
static int prints(uint32_t (*call)(char *, size_t, struct basinmug_print_answer *)) {
    const size_t whole = strlen(PRINTED);
    for (size_t room = 0; room <= whole + 4; room++) {
        struct basinmug_print_answer answer = {1, 1, 1, 1, 1, 1};
        char *out = __real_malloc(room ? room : 1);
        memset(out, '#', room ? room : 1);
        CHECK(call(out, room, &answer) == BASINMUG_OK);
        CHECK(answer.size == whole && answer.wider == 0 && answer.line == 0 && answer.field == 0 && answer.row == 0 && answer.column == 0);
        CHECK(memcmp(out, PRINTED, room < whole ? room : whole) == 0);
        for (size_t at = whole; at < room; at++) CHECK(out[at] == '#');
        CHECK(room != 0 || out[0] == '#');
        free(out);
    }
    unsigned long at = 0;
    do {
        CHECK(++at < 10000);
        struct basinmug_print_answer answer = {1, 1, 1, 1, 1, 1};
        char out[64];
        memset(out, '#', sizeof out);
        calls = 0, refused = 0, refused_call = at, counts = 1;
        uint32_t status = call(out, sizeof out, &answer);
        counts = 0;
        CHECK(status == (refused ? BASINMUG_MEMORY : BASINMUG_OK));
        if (refused) {
            size_t size = 0;
            CHECK(answer.size == 0 && answer.wider == 0 && answer.line == 0 && answer.field == 0 && answer.row == 0 && answer.column == 0);
            while (size < sizeof out && out[size] != '#') size++;
            CHECK(memcmp(out, PRINTED, size) == 0);
            for (; size < sizeof out; size++) CHECK(out[size] == '#');
        }
    } while (refused);
    CHECK(at > 5);
    return 0;
}

int main(void) {
    CHECK(basinmug_version() == BASINMUG_VERSION);
    int line = rooms();
    if (!line) line = sizes();
    if (!line) line = refusals(table, 5);
    if (!line) line = refusals(limited_table, 5);
    if (!line) line = refusals(colored_table, 9);
    if (!line) line = refusals(stripped, 1);
    if (!line) line = prints(printed);
    if (!line) line = prints(printed_cells);
    if (!line) line = colors();
    if (!line) line = threads();
    return line > 255 ? 255 : line;
}

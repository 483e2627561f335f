/*
 * Calls `basinmug_print` and `basinmug_print_cells` with options, lists and a text of a fuzzer's making, and stops where a
 * result breaks a promise of the header or of the first page. The first eleven bytes are numbers; then three lists up to a
 * line feed each, if the eleventh is odd; the others are the text, of which bytes 1F and 1E end cells if cells are printed.
 *
 * It is linked with `--wrap` of malloc, realloc and free, so that it counts what a call holds.
 */
#include "shared.h"

#include <malloc.h>

enum { NUMBERS = 11, FRONT = 64 };

/* ---- memory */

static size_t held, most;

void *__real_malloc(size_t size);
void *__real_realloc(void *old, size_t size);
void __real_free(void *old);

static void *taken(void *memory) {
    if (memory) held += malloc_usable_size(memory);
    if (held > most) most = held;
    return memory;
}

static void given(void *memory) {
    size_t size = memory ? malloc_usable_size(memory) : 0;
    held -= size < held ? size : held;
}

void *__wrap_malloc(size_t size) { return taken(__real_malloc(size)); }
void *__wrap_realloc(void *old, size_t size) {
    given(old);
    void *memory = __real_realloc(old, size);
    return memory ? taken(memory) : (taken(old), memory);
}
void __wrap_free(void *old) {
    given(old);
    __real_free(old);
}

/* ---- a request */

struct request {
    struct basinmug_print_options options;
    struct bytes lists[3], text;
    int are_cells;
    size_t per_record, count, *lengths;
};

static uint32_t call(const struct request *it, char *out, size_t room, struct basinmug_print_answer *answer) {
    const struct bytes *of = it->lists;
    if (it->are_cells)
        return basinmug_print_cells(&it->options, of[0].at, of[0].size, of[1].at, of[1].size, of[2].at, of[2].size, it->text.at,
                                    it->text.size, it->lengths, it->count, it->per_record, out, room, answer);
    return basinmug_print(&it->options, of[0].at, of[0].size, of[1].at, of[1].size, of[2].at, of[2].size, it->text.at, it->text.size,
                          out, room, answer);
}

/* The text without the bytes that end cells, and the length of each cell, in whole records. */
static void divide(struct request *it) {
    size_t size = 0, length = 0;
    it->lengths = malloc((it->text.size + it->per_record + 1) * sizeof *it->lengths);
    for (size_t i = 0; i < it->text.size; i++) {
        char byte = it->text.at[i];
        if (byte != 0x1f && byte != 0x1e) it->text.at[size++] = byte, length++;
        else it->lengths[it->count++] = length, length = 0;
    }
    it->lengths[it->count++] = length;
    while (it->count % it->per_record) it->lengths[it->count++] = 0;
    it->text.size = size;
}

static size_t number(uint8_t byte, unsigned below, size_t none) { return byte < 192 ? byte % below : none; }

static struct request requested(const uint8_t *data, size_t size) {
    struct request it = {.options = BASINMUG_PRINT_OPTIONS, .per_record = 1 + data[9] % 5, .are_cells = data[3] & 16};
    it.options.style = data[0] % 6;
    it.options.width = it.options.style == BASINMUG_MARKDOWN && data[1] < 250 ? BASINMUG_NO_WIDTH : number(data[1], 96, BASINMUG_NO_WIDTH);
    it.options.priority = data[2] % 5;
    it.options.truncate = data[3] & 1, it.options.expanded = data[3] >> 1 & 1;
    it.options.all_columns = data[3] >> 2 & 1, it.options.no_header = data[3] >> 3 & 1;
    it.options.max_size = data[3] & 32 ? data[3] : BASINMUG_ANY_SIZE;
    it.options.rules = data[4] % 3, it.options.escapes = data[4] / 3 % 3;
    it.options.max_rows = number(data[5], 8, BASINMUG_ALL_ROWS), it.options.tail = number(data[6], 8, BASINMUG_NO_TAIL);
    it.options.head = it.options.tail == BASINMUG_NO_TAIL ? number(data[7], 8, BASINMUG_NO_HEAD) : BASINMUG_NO_HEAD;
    it.options.delimiter = data[8] < 128 && !strchr("\"\n\r", data[8]) ? data[8] : BASINMUG_AUTO;
    int has_lists = data[10] & 1;
    data += NUMBERS, size -= NUMBERS;
    for (int i = 0; i < 3; i++) it.lists[i] = has_lists ? list_of(&data, &size) : copied(data, 0);
    it.text = copied(data, size);
    if (it.are_cells) divide(&it);
    return it;
}

static void drop(struct request *it) {
    for (int i = 0; i < 3; i++) free(it->lists[i].at);
    free(it->text.at), free(it->lengths);
}

/* ---- what is promised of an output */

/* Whether a sequence sets and clears styles by known codes alone, and conceals nothing. */
static int is_kept(const char *at, size_t size) {
    const char *end = at + size - 1;
    if (at[1] != '[' || *end != 'm') return 0;
    for (const char *i = at += 2; i < end; i++) if (!strchr("0123456789;", *i)) return 0;
    while (at <= end) {
        int code = parameter(at, end, &at);
        if (code < 0 || code == 8 || (code && !set_by(code) && !cleared_by(code))) return 0;
        if (code != 38 && code != 48 && code != 58) continue;
        int form = at <= end ? parameter(at, end, &at) : -1, count = form == 5 ? 1 : form == 2 ? 3 : 0;
        if (!count) return 0;
        for (; count; count--) if (at > end || parameter(at, end, &at) < 0) return 0;
    }
    return 1;
}

/* The next character of UTF-8, and where it ends. */
static unsigned character(const char **at) {
    const unsigned char *b = (const unsigned char *)*at;
    int more = b[0] < 0x80 ? 0 : b[0] < 0xe0 ? 1 : b[0] < 0xf0 ? 2 : 3;
    unsigned code = more ? b[0] & (0x3f >> more) : b[0];
    for (int i = 1; i <= more; i++) code = code << 6 | (b[i] & 0x3f);
    *at += more + 1;
    return code;
}

static int is_in(unsigned code, unsigned low, unsigned high) { return low <= code && code <= high; }

/* Unless all sequences take effect, there are only those of known codes, and of control characters only line feeds. */
static void is_harmless(struct bytes out) {
    for (const char *at = out.at, *end = out.at + out.size; at < end;) {
        if (*at == 0x1b) {
            size_t size = sequence((const unsigned char *)at, end - at);
            HOLDS(size && is_kept(at, size));
            at += size;
            continue;
        }
        unsigned code = character(&at);
        HOLDS(code == '\n' || (code >= 0x20 && !is_in(code, 0x7f, 0x9f) && !is_in(code, 0x202a, 0x202e) && !is_in(code, 0x2066, 0x2069)));
    }
}

/* The columns of a character that adds them to those of any text; or 9. */
static size_t added(unsigned code) {
    if (is_in(code, 0x20, 0x7e) || is_in(code, 0xc0, 0x24f) || is_in(code, 0x410, 0x44f) || code == 0x2026 || is_in(code, 0x2400, 0x2426) ||
        is_in(code, 0x2500, 0x257f) || code == 0xfffd)
        return 1;
    return is_in(code, 0x4e00, 0x9fff) || is_in(code, 0x3041, 0x3096) || is_in(code, 0x1f600, 0x1f64f) ? 2 : 9;
}

/* Whether the lines of a table without sequences are equally wide, and no wider than requested; of such characters alone. */
static void is_straight(const struct request *it, struct bytes out, size_t wider) {
    size_t first = 0, columns = 0, is_first = 1;
    if (it->options.expanded || it->options.style == BASINMUG_MARKDOWN) return;
    for (const char *at = out.at; at < out.at + out.size;) {
        /* Lines that count what is left out come last. */
        if (!columns && *at == '(' && out.at[out.size - 2] == ')') return;
        unsigned code = character(&at);
        if (code != '\n') {
            if (added(code) == 9) return;
            columns += added(code);
            continue;
        }
        if (is_first) first = columns;
        HOLDS(columns == first);
        HOLDS(it->options.width == BASINMUG_NO_WIDTH || wider || columns <= it->options.width);
        is_first = columns = 0;
    }
}

/* Each cell without the sequences that are kept, and no colours of columns; or nothing where that joins what is beside them. */
static int without_styles(const struct request *it, struct request *bare) {
    if (!it->are_cells || it->options.escapes == BASINMUG_ESCAPES_NONE) return 0;
    *bare = *it;
    bare->text = (struct bytes){malloc(it->text.size ? it->text.size : 1), 0};
    bare->lengths = malloc(it->count * sizeof *bare->lengths);
    bare->lists[2].size = 0;
    const char *at = it->text.at;
    for (size_t cell = 0; cell < it->count; cell++) {
        size_t before = bare->text.size;
        for (const char *end = at + it->lengths[cell]; at < end;) {
            size_t size = *at == 0x1b ? sequence((const unsigned char *)at, end - at) : 1;
            int goes = *at == 0x1b && size && (it->options.escapes == BASINMUG_ESCAPES_ALL || is_kept(at, size));
            int joins = goes && bare->text.size && bare->text.at[bare->text.size - 1] == '\r';
            if ((*at == 0x1b && !goes) || joins) return free(bare->text.at), free(bare->lengths), 0;
            if (!goes) bare->text.at[bare->text.size++] = *at;
            at += size;
        }
        bare->lengths[cell] = bare->text.size - before;
    }
    return 1;
}

/* What is printed, in memory of just its size; and the status. */
static uint32_t printed(const struct request *it, struct bytes *out, struct basinmug_print_answer *answer) {
    struct basinmug_print_answer first = {1, 1, 1, 1, 1, 1};
    char some[FRONT + 1];
    memset(some, '#', sizeof some);
    size_t before = most = held;
    uint32_t status = call(it, some, FRONT, &first);
    /* What a call holds goes with its input and its output. Of an output that is too large, each character may be a line with sequences. */
    size_t input = it->text.size + it->count * 2 + it->lists[0].size + it->lists[1].size + it->lists[2].size;
    HOLDS(most - before <= 65536 + (status == BASINMUG_OVER_MAX_SIZE ? 480 : 160) * input + 64 * first.size);
    HOLDS(held == before);
    HOLDS(some[FRONT] == '#');
    out->at = malloc(first.size ? first.size : 1), out->size = first.size;
    memset(answer, 1, sizeof *answer);
    HOLDS(call(it, out->at, out->size, answer) == status);
    HOLDS(memcmp(&first, answer, sizeof first) == 0);
    HOLDS(status != BASINMUG_OK || memcmp(some, out->at, out->size < FRONT ? out->size : FRONT) == 0);
    size_t written = status == BASINMUG_OK ? out->size : status == BASINMUG_OVER_MAX_SIZE ? it->options.max_size + 1 : 0;
    for (size_t i = written; i < FRONT; i++) HOLDS(some[i] == '#');
    HOLDS(status == BASINMUG_OK || (out->size == 0 && answer->wider == 0));
    HOLDS(status != BASINMUG_OK || out->size <= it->options.max_size);
    return status;
}

int LLVMFuzzerTestOneInput(const uint8_t *data, size_t size) {
    if (size < NUMBERS) return 0;
    struct request it = requested(data, size), bare;
    struct basinmug_print_answer answer, other;
    struct bytes out, plain;
    uint32_t status = printed(&it, &out, &answer);
    HOLDS(status != BASINMUG_LINE_TOO_WIDE && status != BASINMUG_SPANS && status != BASINMUG_RANGE);
    HOLDS(status != BASINMUG_READ && status != BASINMUG_WRITE && status != BASINMUG_WRITE_ZERO && status != BASINMUG_MEMORY);
    HOLDS(status != BASINMUG_NOT_UTF8 || utf8_front(it.text) < it.text.size || it.are_cells);
    HOLDS(status != BASINMUG_ESCAPE || it.options.escapes == BASINMUG_ESCAPES_ALL);
    if (status == BASINMUG_OK) {
        HOLDS(utf8_front(out) == out.size);
        ends_plain(out);
        if (it.options.escapes != BASINMUG_ESCAPES_ALL) is_harmless(out);
        struct bytes left = stripped(out);
        is_straight(&it, left, answer.wider);
        if (it.options.max_size == BASINMUG_ANY_SIZE && without_styles(&it, &bare)) {
            HOLDS(printed(&bare, &plain, &other) == BASINMUG_OK && other.wider == answer.wider);
            HOLDS(left.size == plain.size && memcmp(left.at, plain.at, left.size) == 0);
            free(plain.at), free(bare.text.at), free(bare.lengths);
        }
        free(left.at);
    }
    free(out.at);
    drop(&it);
    return 0;
}

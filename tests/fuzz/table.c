/*
 * Calls the library with options and a text of a fuzzer's making, and stops where a result breaks a promise of the header
 * or of what the table shows. The first eight bytes are the options; then a list of colours up to a line feed, if the sixth is odd;
 * the others are the text.
 */
#include "shared.h"

/* Whether all lines are as long, which those of printable ASCII in lines of ASCII, or in none, are. */
static void is_straight(uint32_t style, struct bytes text, struct bytes table) {
    if (style != BASINMUG_ASCII && style != BASINMUG_EMPTY) return;
    for (size_t i = 0; i < text.size; i++)
        if (!is_between(text.at[i], 0x20, 0x7e) && text.at[i] != '\t' && text.at[i] != '\n') return;
    size_t first = 0, start = 0;
    for (size_t i = 0; i < table.size; i++) {
        if (table.at[i] != '\n') continue;
        if (start == 0) first = i;
        HOLDS(i - start == first);
        start = i + 1;
    }
}

/* The table has at most as many bytes as it has, and not one less. */
static void within(const struct basinmug_options *options, struct bytes text, struct bytes table) {
    struct basinmug_options limited = *options;
    struct basinmug_answer answer = {1, 1, 1, 1};
    char none = '#';
    limited.max_size = table.size;
    HOLDS(basinmug_table(&limited, text.at, text.size, &none, 0, &answer) == BASINMUG_OK && answer.size == table.size);
    if (table.size < 2) return;
    limited.max_size = table.size - 1;
    HOLDS(basinmug_table(&limited, text.at, text.size, &none, 1, &answer) == BASINMUG_OVER_MAX_SIZE);
    HOLDS(none == '#' && answer.size == 0 && answer.place == 0 && answer.row == 0 && answer.column == 0);
}

/* The table of a text, in memory of just its size; and its status. */
static uint32_t table_of(const struct basinmug_options *options, struct bytes text, struct bytes *table) {
    struct basinmug_answer answer = {1, 1, 1, 1}, again = {1, 1, 1, 1};
    char some[65];
    memset(some, '#', sizeof some);
    uint32_t status = basinmug_table(options, text.at, text.size, some, 64, &answer);
    HOLDS(some[64] == '#');
    table->at = malloc(answer.size ? answer.size : 1), table->size = answer.size;
    HOLDS(basinmug_table(options, text.at, text.size, table->at, table->size, &again) == status);
    HOLDS(memcmp(&answer, &again, sizeof answer) == 0);
    HOLDS(status != BASINMUG_OK || memcmp(some, table->at, answer.size < 64 ? answer.size : 64) == 0);
    for (size_t i = status == BASINMUG_OK ? answer.size : 0; i < 64; i++) HOLDS(some[i] == '#');
    size_t utf8 = utf8_front(text), at = first_broken(text);
    if (utf8 < text.size) HOLDS(status == BASINMUG_NOT_UTF8 && answer.place == utf8);
    else if (at < text.size) HOLDS(status == BASINMUG_ESCAPE && answer.place == at);
    else HOLDS(status == BASINMUG_OK || status == BASINMUG_RANGE || status == BASINMUG_MEMORY);
    HOLDS(status == BASINMUG_OK || answer.size == 0);
    if (status == BASINMUG_OK) within(options, text, *table);
    return status;
}

/* With the colours of a list each line ends plain, and without sequences it is the same table. */
static void is_colored(const struct basinmug_options *options, struct bytes colors, struct bytes text, struct bytes table) {
    struct basinmug_answer answer = {1, 1, 1, 1}, again = {1, 1, 1, 1};
    char none = '#';
    uint32_t status = basinmug_colored_table(options, colors.at, colors.size, text.at, text.size, &none, 0, &answer);
    struct bytes colored = {malloc(answer.size ? answer.size : 1), answer.size};
    HOLDS(basinmug_colored_table(options, colors.at, colors.size, text.at, text.size, colored.at, colored.size, &again) == status);
    HOLDS(none == '#' && memcmp(&answer, &again, sizeof answer) == 0);
    HOLDS(status == BASINMUG_OK || (status == BASINMUG_BAD_COLORS && colored.size == 0));
    if (status == BASINMUG_OK) {
        ends_plain(colored);
        struct bytes bare = stripped(colored), left = stripped(table);
        HOLDS(bare.size == left.size && memcmp(bare.at, left.at, left.size) == 0);
        free(bare.at), free(left.at);
    }
    free(colored.at);
}

int LLVMFuzzerTestOneInput(const uint8_t *data, size_t size) {
    if (size < 8) return 0;
    struct basinmug_options options = BASINMUG_OPTIONS;
    options.style = data[0] % 4;
    if (data[1] < 192) options.width = data[1] % 96;
    options.priority = data[2] % 5;
    options.truncate = data[3] % 2;
    options.keep_words = data[4] % 2;
    int has_colors = data[5] & 1;
    data += 8, size -= 8;
    struct bytes colors = has_colors ? list_of(&data, &size) : copied("0=red", 5);
    struct bytes text = copied(data, size), table, plain_table;
    if (table_of(&options, text, &table) == BASINMUG_OK) {
        ends_plain(table);
        struct bytes plain = stripped(text), left = stripped(table);
        HOLDS(table_of(&options, plain, &plain_table) == BASINMUG_OK);
        HOLDS(left.size == plain_table.size && memcmp(left.at, plain_table.at, left.size) == 0);
        is_straight(options.style, plain, plain_table);
        is_colored(&options, colors, text, table);
        free(plain.at), free(left.at), free(plain_table.at);
    }
    free(colors.at), free(text.at), free(table.at);
    return 0;
}

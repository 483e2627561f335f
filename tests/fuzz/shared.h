/*
 * What the fuzzed checks have in common: where a promise is broken, and sequences and styles. These are read here
 * independently, by ECMA-48 and the project's table of codes, and not by the library.
 */
#include "basinmug.h"

#include <stdio.h>
#include <stdlib.h>
#include <string.h>

#define HOLDS(what) do { if (!(what)) broken(#what, __LINE__); } while (0)

static void broken(const char *what, int line) {
    fprintf(stderr, "line %d: it does not hold that %s\n", line, what);
    abort();
}

/* Bytes and how many there are. */
struct bytes { char *at; size_t size; };

/* ECMA-48, 5.4: parameter, intermediate and final bytes of a control sequence. */
static int is_between(unsigned char byte, unsigned char low, unsigned char high) { return low <= byte && byte <= high; }

/* How many bytes the sequence at this ESC has, or 0 where none is whole. */
static size_t sequence(const unsigned char *at, size_t size) {
    size_t i = 2;
    if (size < 2) return 0;
    switch (at[1]) {
    case '[':
        while (i < size && is_between(at[i], 0x30, 0x3f)) i++;
        while (i < size && is_between(at[i], 0x20, 0x2f)) i++;
        return i < size && is_between(at[i], 0x40, 0x7e) ? i + 1 : 0;
    case ']': case 'P': case 'X': case '^': case '_':
        for (; i < size; i++) {
            if (at[i] == 0x07 && at[1] == ']') return i + 1;
            if (at[i] == 0x1b) return i + 1 < size && at[i + 1] == '\\' ? i + 2 : 0;
            if (at[i] == 0x18 || at[i] == 0x1a) return 0;
        }
        return 0;
    default:
        if (is_between(at[1], 0x20, 0x2f)) {
            while (i < size && is_between(at[i], 0x20, 0x2f)) i++;
            return i < size && is_between(at[i], 0x30, 0x7e) ? i + 1 : 0;
        }
        return is_between(at[1], 0x30, 0x7e) ? 2 : 0;
    }
}

/* The first ESC at which no whole sequence begins, or the size where there is none. */
static size_t first_broken(struct bytes text) {
    for (size_t i = 0; i < text.size;) {
        size_t count = 1;
        if (text.at[i] == 0x1b && !(count = sequence((const unsigned char *)text.at + i, text.size - i))) return i;
        i += count;
    }
    return text.size;
}

/* A whole text without its sequences. */
static struct bytes stripped(struct bytes text) {
    struct bytes left = {malloc(text.size ? text.size : 1), 0};
    for (size_t i = 0; i < text.size;) {
        if (text.at[i] == 0x1b) i += sequence((const unsigned char *)text.at + i, text.size - i);
        else left.at[left.size++] = text.at[i++];
    }
    return left;
}

/* The longest prefix that is UTF-8 (Unicode, table 3-7), in bytes. */
static size_t utf8_front(struct bytes text) {
    const unsigned char *b = (const unsigned char *)text.at;
    size_t i = 0;
    while (i < text.size) {
        size_t more = b[i] < 0x80 ? 0 : is_between(b[i], 0xc2, 0xdf) ? 1 : is_between(b[i], 0xe0, 0xef) ? 2 : is_between(b[i], 0xf0, 0xf4) ? 3 : 9;
        if (more == 9 || i + more >= text.size) return i;
        unsigned char low = b[i] == 0xe0 ? 0xa0 : b[i] == 0xf0 ? 0x90 : 0x80, high = b[i] == 0xed ? 0x9f : b[i] == 0xf4 ? 0x8f : 0xbf;
        for (size_t k = 1; k <= more; k++, low = 0x80, high = 0xbf)
            if (!is_between(b[i + k], low, high)) return i;
        i += more + 1;
    }
    return i;
}

/* Which attributes a rendition sets or clears: a bit each. */
static unsigned set_by(int code) {
    static const int codes[] = {1, 2, 3, 20, 4, 21, 5, 6, 7, 8, 9, 26, 51, 52, 53, 60, 61, 62, 63, 64, 73, 74};
    for (unsigned i = 0; i < sizeof codes / sizeof *codes; i++) if (codes[i] == code) return 1u << i;
    if (is_between(code, 11, 19)) return 1u << 22;
    if (is_between(code, 30, 37) || is_between(code, 90, 97) || code == 38) return 1u << 23;
    if (is_between(code, 40, 47) || is_between(code, 100, 107) || code == 48) return 1u << 24;
    return code == 58 ? 1u << 25 : 0;
}

static unsigned cleared_by(int code) {
    static const int pairs[][6] = {{22, 1, 2}, {23, 3, 20}, {24, 4, 21}, {25, 5, 6}, {27, 7}, {28, 8}, {29, 9}, {10, 11}, {50, 26},
                                   {39, 38}, {49, 48}, {59, 58}, {54, 51, 52}, {55, 53}, {65, 60, 61, 62, 63, 64}, {75, 73, 74}};
    unsigned bits = 0;
    for (unsigned i = 0; i < sizeof pairs / sizeof *pairs; i++)
        for (unsigned k = 1; pairs[i][0] == code && k < 6 && pairs[i][k]; k++) bits |= set_by(pairs[i][k]);
    return bits;
}

/* The number of a parameter, or -1 where it has a colon or passes 255; the end of it in `next`. */
static int parameter(const char *at, const char *end, const char **next) {
    int number = 0;
    for (; at < end && *at != ';'; at++) {
        if (*at == ':') number = -1;
        else if (number >= 0) number = number * 10 + (*at - '0') > 255 ? -1 : number * 10 + (*at - '0');
        if (number < 0) while (at + 1 < end && at[1] != ';') at++;
    }
    *next = at < end ? at + 1 : end + 1;
    return number;
}

/* The attributes after a rendition `ESC [ .. m`, of which `at` and `end` are the parameters. */
static unsigned rendered(unsigned style, const char *at, const char *end) {
    while (at <= end) {
        int code = parameter(at, end, &at);
        if (code == 38 || code == 48 || code == 58) {
            const char *next = at;
            int form = at <= end ? parameter(at, end, &next) : -1, count = form == 5 ? 1 : form == 2 ? 3 : -1;
            for (int k = 0; k < count; k++) {
                if (next > end || parameter(next, end, &next) < 0) count = -1;
            }
            if (count < 0) return style;
            at = next;
        }
        if (code == 0) style = 0;
        if (code > 0) style = (style | set_by(code)) & ~cleared_by(code);
    }
    return style;
}

/* A copy of bytes that has no byte more. */
static struct bytes copied(const void *at, size_t size) {
    struct bytes copy = {malloc(size ? size : 1), size};
    memcpy(copy.at, at, size);
    return copy;
}

/* The bytes up to a line feed, which are taken from the front of others. */
static struct bytes list_of(const uint8_t **at, size_t *size) {
    const uint8_t *end = *size ? memchr(*at, '\n', *size) : NULL;
    struct bytes list = copied(*at, end ? (size_t)(end - *at) : 0);
    if (end) *size -= list.size + 1, *at = end + 1;
    return list;
}

/* Whether no line of a table ends with an attribute set, and each ends by a line feed. */
static void ends_plain(struct bytes table) {
    unsigned style = 0;
    HOLDS(table.size == 0 || table.at[table.size - 1] == '\n');
    for (size_t i = 0; i < table.size;) {
        if (table.at[i] != 0x1b) {
            HOLDS(table.at[i] != '\n' || style == 0);
            i++;
            continue;
        }
        size_t count = sequence((const unsigned char *)table.at + i, table.size - i), plain = 2;
        HOLDS(count > 0);
        while (plain < count && strchr("0123456789;:", table.at[i + plain])) plain++;
        if (table.at[i + 1] == '[' && plain + 1 == count && table.at[i + plain] == 'm') style = rendered(style, table.at + i + 2, table.at + i + plain);
        i += count;
    }
}

/* Preloaded into a program, this library refuses one request for memory: of the calls of malloc,
   calloc, realloc, aligned_alloc and posix_memalign, counted together from the start of the program,
   the one whose number is in REFUSE_CALL answers as where no memory is left. It then makes the
   file that REFUSE_MARK names, so that whoever started the program knows that a request was refused.
   Each other call goes to the C library (glibc) as it is. A realloc that requests no more than its
   memory was requested for is not counted: a program that keeps what it has loses nothing by it. */
#define _GNU_SOURCE
#include <errno.h>
#include <fcntl.h>
#include <stdint.h>
#include <stdlib.h>
#include <unistd.h>

extern void *__libc_malloc(size_t);
extern void *__libc_calloc(size_t, size_t);
extern void *__libc_realloc(void *, size_t);
extern void *__libc_memalign(size_t, size_t);

static unsigned long calls, refused_call;
static const char *mark;

/* Runs before main: what the loader requested until then is not counted. */
__attribute__((constructor)) static void begin(void) {
    const char *number = getenv("REFUSE_CALL");
    mark = getenv("REFUSE_MARK");
    calls = 0;
    refused_call = number ? strtoul(number, NULL, 10) : 0;
}

static int refuses(void) {
    if (refused_call == 0 || ++calls != refused_call) return 0;
    if (mark) {
        int file = open(mark, O_WRONLY | O_CREAT | O_TRUNC, 0600);
        if (file >= 0) close(file);
    }
    return 1;
}

/* How much was requested last at some places. Of two places with one index the later one is known. */
#define INDEXES 65536
static struct { void *place; size_t size; } known[INDEXES];

static size_t index_of(void *place) { return ((uintptr_t)place >> 4) % INDEXES; }

static void *noted(void *place, size_t size) {
    if (place) {
        known[index_of(place)].place = place;
        known[index_of(place)].size = size;
    }
    return place;
}

static int grows(void *old, size_t size) {
    return !old || known[index_of(old)].place != old || size > known[index_of(old)].size;
}

static void *none(void) {
    errno = ENOMEM;
    return NULL;
}

void *malloc(size_t size) { return refuses() ? none() : noted(__libc_malloc(size), size); }

void *calloc(size_t count, size_t size) { return refuses() ? none() : noted(__libc_calloc(count, size), count * size); }

void *realloc(void *old, size_t size) {
    return grows(old, size) && refuses() ? none() : noted(__libc_realloc(old, size), size);
}

void *aligned_alloc(size_t alignment, size_t size) {
    return refuses() ? none() : noted(__libc_memalign(alignment, size), size);
}

int posix_memalign(void **place, size_t alignment, size_t size) {
    if (refuses()) return ENOMEM;
    void *memory = noted(__libc_memalign(alignment, size), size);
    if (!memory) return ENOMEM;
    *place = memory;
    return 0;
}

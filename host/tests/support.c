#define _GNU_SOURCE
#include "support.h"

#include <stdarg.h>
#include <stdbool.h>
#include <stdio.h>
#include <stdlib.h>
#include <string.h>
#include <sys/mman.h>
#include <unistd.h>

static uint64_t now = 1, first;
static bool seeded;

void random_seed(uint64_t seed)
{
    seeded = true;
    first = seed;
    now = seed * 2 + 1;
}

static uint64_t next(void)
{
    now ^= now << 13;
    now ^= now >> 7;
    now ^= now << 17;
    return now;
}

uint32_t random_below(uint32_t n)
{
    return n ? (uint32_t)((next() >> 16) % n) : 0;
}

void random_bytes(uint8_t *out, size_t len)
{
    for (size_t i = 0; i < len; i++) out[i] = (uint8_t)(next() >> 24);
}

enum { MARKED = 32 };

void guard_make(guard *g, size_t room)
{
    size_t page = (size_t)sysconf(_SC_PAGESIZE), pages = (room + MARKED + page - 1) / page;
    uint8_t *base = mmap(NULL, (pages + 1) * page, PROT_READ | PROT_WRITE, MAP_PRIVATE | MAP_ANONYMOUS, -1, 0);
    if (base == MAP_FAILED) fail("no memory for a guarded buffer of %zu bytes", room);
    g->end = base + pages * page;
    g->room = room;
    g->at = g->end;
    g->len = 0;
    if (mprotect(g->end, page, PROT_NONE)) fail("the guard page could not be set");
}

uint8_t *guard_lend(guard *g, const uint8_t *bytes, size_t len)
{
    if (len > g->room) fail("the test lends %zu of %zu bytes", len, g->room);
    g->at = g->end - len;
    g->len = len;
    memset(g->at - MARKED, 0xA5, MARKED);
    if (bytes) {
        if (len) memcpy(g->at, bytes, len);
    } else {
        random_bytes(g->at, len);
    }
    return g->at;
}

void guard_check(const guard *g, const char *what)
{
    for (size_t i = 1; i <= MARKED; i++)
        if (g->at[-(ptrdiff_t)i] != 0xA5) fail("%s: a byte %zu before the buffer was written", what, i);
}

void hex(const char *name, const uint8_t *b, size_t n)
{
    fprintf(stderr, "%s (%zu):", name, n);
    for (size_t i = 0; i < n && i < 64; i++) fprintf(stderr, " %02X", b[i]);
    fprintf(stderr, n > 64 ? " ..\n" : "\n");
}

void fail(const char *format, ...)
{
    va_list args;
    va_start(args, format);
    fflush(stdout);
    vfprintf(stderr, format, args);
    va_end(args);
    fputs("\n", stderr);
    if (seeded) fprintf(stderr, "seed %llu\n", (unsigned long long)first);
    exit(1);
}

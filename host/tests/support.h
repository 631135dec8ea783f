/* What the tests share: random numbers, and buffers that end at an inaccessible page. */
#ifndef SUPPORT_H
#define SUPPORT_H

#include <stddef.h>
#include <stdint.h>

/* Random numbers from one seed, which the tests print. */
void random_seed(uint64_t seed);
uint32_t random_below(uint32_t n); /* 0 to n - 1; 0 for n = 0 */
void random_bytes(uint8_t *out, size_t len);

/* A buffer of any length up to its room whose last byte stands before an inaccessible page, with marked bytes before its first one: a call
 * that reads or writes one byte too far ends the test, one that writes before it is found by guard_check. */
typedef struct {
    uint8_t *end;  /* the inaccessible page */
    size_t room;
    uint8_t *at;   /* the buffer as lent last */
    size_t len;
} guard;

void guard_make(guard *g, size_t room);
uint8_t *guard_lend(guard *g, const uint8_t *bytes, size_t len); /* a copy of the bytes; bytes NULL: random ones */
void guard_check(const guard *g, const char *what);

/* Shows bytes on standard error, the first 64 of them. */
void hex(const char *name, const uint8_t *b, size_t n);

/* Ends the test with a message, and the seed where one was set. */
_Noreturn void fail(const char *format, ...);

#endif

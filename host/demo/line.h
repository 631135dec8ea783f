/* A serial line, or a pseudo-terminal in its place: raw, paced as Appendix 7 has it, and, for tests, one that loses, repeats and spoils
 * the frames put on it. */
#ifndef LINE_H
#define LINE_H

#include "tacho.h"

#include <stdbool.h>
#include <stddef.h>
#include <stdint.h>

/* Of a thousand frames put out, how many are lost, repeated and spoiled. */
typedef struct { unsigned lose, repeat, spoil; } line_faults;

/* Times in milliseconds (DDP_019). */
typedef struct {
    unsigned long silence; /* so long without a byte ends a string: over P1 and P4, which are at most 20 */
    unsigned long gap;     /* between the bytes of a string put out: P4, 5 to 20 for a tool; P1, 0 to 20 for a unit */
    unsigned long rest;    /* before a string is put out: P3, 10 or more for a tool; P2, 20 to 1,000 for a unit */
} line_times;

/* How a serial port is set up; a pseudo-terminal takes it and does nothing with it. */
typedef struct {
    unsigned long baud; /* 9,600 at first (DDP_005) */
    const char *parity; /* "even", "odd" or "none" */
} line_port;

/* The longest string. A broken frame and the good one behind it stand in it together, each of the longest, so that it
 * is seen where the good one begins; noise that goes on for longer is handed out in parts. */
enum { LINE_STRING_MOST = 2 * TACHO_FRAME_MOST };

typedef struct {
    int fd, other; /* the line, and the other end of a pseudo-terminal that was made here, kept open; -1 where there is none */
    uint8_t unit_address, tool_address; /* of the two ends: a good frame has them */
    line_faults faults;
    line_times times;
    uint64_t random;
    unsigned lost, repeated, spoiled; /* what has happened so far */
    uint8_t bytes[LINE_STRING_MOST];  /* received and not handed out yet */
    size_t count;
} line;

/* Whether a port can be set up so. False with a message on standard error. */
bool line_port_check(const line_port *port);

/* Opens a serial port by its path. False with a message on standard error. */
bool line_open(line *l, const char *path, const line_port *port);

/* Makes a pseudo-terminal; its other end is opened by the path handed back. */
bool line_make(line *l, char *path, size_t path_len);

/* Sets the port to another baud rate once all that was put out has gone. False where the port has no such rate. */
bool line_set_baud(line *l, unsigned long baud);

/* Puts a frame on the line, with the faults asked for, and comes back when its last byte has gone. False where the line is gone. */
bool line_send(line *l, const uint8_t *frame, size_t len);

/* Waits so many milliseconds for a string to begin, then for its end: a whole good frame at once, else whatever came before a silence. A
 * good frame behind a broken one is a string of its own. Its length; 0 if none began in that time; -1 where the line is gone.
 * at_tool: which end listens. */
int line_receive(line *l, uint8_t *out, size_t out_len, unsigned long milliseconds, bool at_tool);

#endif

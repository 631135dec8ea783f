/*
 * The strings that line_receive makes of bytes that come as on a real serial line: singly, in clumps, with gaps, after a long wait, broken,
 * cut off, two at once. A process of its own writes them to the other end of a pseudo-terminal. Those that are told apart by what is a good
 * frame come at other addresses than the lab's too.
 */
#define _GNU_SOURCE
#include "clock.h"
#include "line.h"
#include "tacho.h"

#include <fcntl.h>
#include <stdio.h>
#include <stdlib.h>
#include <string.h>
#include <sys/wait.h>
#include <unistd.h>

static unsigned passed;
static line l;
static char path[128];

/* What the peer does: so many bytes at a time, with a gap between the clumps, after a wait. */
typedef struct {
    const uint8_t *bytes;
    size_t len, clump;
    unsigned long gap, wait;
} script;

static pid_t play(script s)
{
    pid_t child = fork();
    if (child) return child;
    int fd = open(path, O_RDWR | O_NOCTTY);
    clock_pause(s.wait);
    for (size_t i = 0; i < s.len; i += s.clump) {
        if (i) clock_pause(s.gap);
        size_t n = s.len - i < s.clump ? s.len - i : s.clump;
        if (write(fd, s.bytes + i, n) != (ssize_t)n) _exit(1);
    }
    _exit(0);
}

/* The next string has these bytes; NULL: none comes in that time. */
static void comes(const char *what, const uint8_t *bytes, size_t len, unsigned long wait)
{
    uint8_t out[LINE_STRING_MOST];
    int n = line_receive(&l, out, sizeof out, wait, true);
    if (n != (int)len || (len && memcmp(out, bytes, len))) {
        fprintf(stderr, "%s: a string of %d bytes came, %zu were wanted\n", what, n, len);
        exit(1);
    }
    passed++;
}

/* Frames to the tool: a full sub message, a short reply, and the same broken. */
static uint8_t full[TACHO_FRAME_MOST], reply[16], bytes[LINE_STRING_MOST];
static size_t full_len, reply_len;

static void make_frames(void)
{
    uint8_t data[255];
    for (size_t i = 0; i < sizeof data; i++) data[i] = (uint8_t)(i * 3);
    data[0] = 0x76;
    full_len = tacho_frame_write_at(l.unit_address, l.tool_address, data, sizeof data, true, full, sizeof full).len;
    reply_len = tacho_frame_write_at(l.unit_address, l.tool_address, (const uint8_t[]){0x50, 0x81}, 2, true, reply, sizeof reply).len;
}

static void one(const char *what, script s)
{
    pid_t peer = play(s);
    comes(what, s.bytes, s.len, 1000);
    waitpid(peer, NULL, 0);
    comes(what, NULL, 0, 30);
}

/* One string, then another right behind it, so many bytes at a time: two strings. */
static void two(const char *what, const uint8_t *first, size_t first_len, const uint8_t *second, size_t second_len,
                size_t clump)
{
    memmove(bytes, first, first_len);
    memcpy(bytes + first_len, second, second_len);
    pid_t peer = play((script){bytes, first_len + second_len, clump, 1, 0});
    comes(what, bytes, first_len, 1000);
    comes(what, second, second_len, 1000);
    waitpid(peer, NULL, 0);
    comes(what, NULL, 0, 30);
}

/* A full frame with one byte changed, then a good frame. */
static void broken_then_good(const char *what, size_t at, uint8_t value)
{
    memcpy(bytes, full, full_len);
    bytes[at] = value;
    two(what, bytes, full_len, reply, reply_len, 64);
}

static void broken_strings(void)
{
    uint8_t broken[TACHO_FRAME_MOST];
    broken_then_good("a broken checksum before a good frame", full_len - 1, (uint8_t)(full[full_len - 1] ^ 1));
    broken_then_good("a smaller LEN before a good frame", 3, 7);
    broken_then_good("a wrong first byte before a good frame", 0, 0x00);
    memcpy(broken, full, full_len);
    broken[10] ^= 1;
    two("the longest string: a broken full frame, then a good one", broken, full_len, full, full_len, sizeof bytes);
    memcpy(broken, reply, reply_len);
    broken[3] = 0xF0;
    two("a LEN that reaches into the good frame behind it", broken, reply_len, full, full_len, 64);
    /* a good frame among the data of a broken one is none of its own */
    memcpy(broken, full, full_len);
    memcpy(broken + 20, reply, reply_len);
    one("a frame within the data of a broken one", (script){broken, full_len, 50, 5, 0});
    one("a peer that stops mid-frame", (script){full, 100, 100, 0, 0});
}

/* Where one string ends and the next begins follows from which frames are good: those with the line's two addresses. */
static void strings_told_apart(uint8_t unit_address, uint8_t tool_address)
{
    uint8_t others[TACHO_FRAME_MOST];
    l.unit_address = unit_address;
    l.tool_address = tool_address;
    make_frames();
    two("two frames in one read", reply, reply_len, full, full_len, sizeof bytes);
    broken_strings();
    memcpy(others, full, full_len);
    others[1]++;
    others[full_len - 1]++;
    two("a frame with another address before a good one", others, full_len, reply, reply_len, 64);
}

int main(void)
{
    l = (line){.fd = -1, .other = -1, .unit_address = TACHO_UNIT_ADDRESS, .tool_address = TACHO_TOOL_ADDRESS, .times = {25, 0, 0}};
    if (!line_make(&l, path, sizeof path)) return 1;
    make_frames();
    one("a frame in 260 reads", (script){full, full_len, 1, 2, 0});
    one("a frame in clumps with gaps of 20 ms", (script){full, full_len, 37, 20, 0});
    one("a reply after 900 ms", (script){reply, reply_len, reply_len, 0, 900});
    strings_told_apart(TACHO_UNIT_ADDRESS, TACHO_TOOL_ADDRESS);
    strings_told_apart(TACHO_UNIT_ADDRESS, 0xFB);
    strings_told_apart(0x81, 0x80); /* bytes that begin a frame */
    comes("nothing", NULL, 0, 20);
    /* the line is gone */
    close(l.other);
    uint8_t out[8];
    if (line_receive(&l, out, sizeof out, 100, true) != -1) {
        fputs("a line that is gone was not noticed\n", stderr);
        return 1;
    }
    printf("line: %u strings came as they should\n", passed + 1);
    return 0;
}

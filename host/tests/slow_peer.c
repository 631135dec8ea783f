/*
 * The other end as a real one is: a plain C unit or tool (host/tests/reference) that puts its bytes out singly or in clumps, with gaps of up
 * to 15 ms, and answers after 20 to 60 ms, once after 900 ms. The unit says once that its response is pending, and takes 1,500 ms then.
 *
 *   slow_peer unit FILE STORE      makes a pseudo-terminal, writes the path of its other end to FILE, answers until communication is stopped
 *   slow_peer rate FILE BAUD..     the same, as a tool that has the unit change its rate to 2, 3 and so on: the port must have these rates
 *   slow_peer tool LINE TREP..     noise first, then start, session, upload, each transfer, exit and stop; prints the bytes of each answer
 */
#define _GNU_SOURCE
#include "clock.h"
#include "options.h"
#include "reference.h"

#include <fcntl.h>
#include <poll.h>
#include <stdio.h>
#include <stdlib.h>
#include <string.h>
#include <termios.h>
#include <unistd.h>

static int fd, other;
static unsigned turn;

static void put(const uint8_t *bytes, size_t len)
{
    clock_pause(turn == 3 ? 900 : 20 + turn * 7 % 41);
    turn++;
    for (size_t i = 0; i < len;) {
        size_t n = turn % 3 ? 1 + (i * 13 + turn * 29) % 60 : 1;
        if (n > len - i) n = len - i;
        if (write(fd, bytes + i, n) != (ssize_t)n) exit(1);
        i += n;
        clock_pause(n == 1 && turn % 3 == 0 ? 1 : i * 5 % 16);
    }
}

/* The next frame; 0 when none begins in three seconds. */
static size_t get(uint8_t *frame)
{
    size_t len = 0;
    for (;;) {
        size_t n = ref_frame_length(frame, len);
        if (n > 0 && n <= len) return n;
        struct pollfd p = {fd, POLLIN, 0};
        if (poll(&p, 1, 3000) <= 0 || read(fd, frame + len, 1) != 1) return 0;
        len++;
    }
}

/* Response pending: nothing may come from the tool until the response. */
static void pend(void)
{
    uint8_t frame[16];
    size_t n = ref_frame_write((const uint8_t[]){0x7F, 0x36, 0x78}, 3, true, frame, sizeof frame).len;
    put(frame, n);
    if (poll(&(struct pollfd){fd, POLLIN, 0}, 1, 1500) == 0) return;
    fputs("slow unit: the tool did not wait for a pending response\n", stderr);
    exit(1);
}

static int unit(const char *store_path)
{
    bool pended = false;
    static uint8_t frame[300];
    uint8_t state[TACHO_UNIT_STATE], reply[TACHO_FRAME_MOST];
    size_t store_len, n;
    uint8_t *store = file_read(store_path, 1 << 20, &store_len);
    if (!store || ref_unit_fresh(TACHO_KIND_GENERATION_2_VERSION_2, state, sizeof state)) return 1;
    while ((n = get(frame)) > 0) {
        tacho_written w = ref_unit_step(state, sizeof state, store, store_len, frame, n, reply, sizeof reply);
        if (w.number) break;
        if (!pended && w.len && reply[REF_FRAME_DATA] == 0x76) {
            pend();
            pended = true;
        }
        put(reply, w.len);
        if (ref_unit_phase(state, sizeof state) == TACHO_PHASE_CLOSED) break;
    }
    free(store);
    return n > 0 ? 0 : 1;
}

static void ask(uint8_t request, uint8_t trep, uint8_t *state, uint8_t *room)
{
    static uint8_t frame[300];
    uint8_t out[TACHO_FRAME_MOST];
    tacho_written w = ref_tool_begin(state, TACHO_TOOL_STATE, request, trep, 0, out, sizeof out);
    while (w.number == 0) {
        if (w.len) put(out, w.len);
        if (ref_tool_outcome(state, TACHO_TOOL_STATE) != TACHO_OUTCOME_WAITING) break;
        size_t n = get(frame);
        if (n) w = ref_tool_arrived(state, TACHO_TOOL_STATE, frame, n, room, TACHO_ANSWER_MOST, out, sizeof out);
        else w = ref_tool_wait_ended(state, TACHO_TOOL_STATE, room, TACHO_ANSWER_MOST, out, sizeof out);
    }
    if (ref_tool_outcome(state, TACHO_TOOL_STATE) == TACHO_OUTCOME_DONE) return;
    fprintf(stderr, "request %u, TREP %02X: not done\n", request, trep);
    exit(1);
}

static int tool(int count, char **treps)
{
    static uint8_t room[TACHO_ANSWER_MOST];
    uint8_t state[TACHO_TOOL_STATE];
    ref_tool_fresh(state, sizeof state);
    put((const uint8_t[]){0x00, 0xFF, 0x81, 0x13}, 4);
    clock_pause(100);
    for (uint8_t r = TACHO_REQUEST_START; r <= TACHO_REQUEST_UPLOAD; r++) ask(r, 0, state, room);
    for (int i = 0; i < count; i++) {
        uint8_t trep = (uint8_t)strtoul(treps[i], NULL, 16);
        ask(TACHO_REQUEST_TRANSFER, trep, state, room);
        printf("%02X %zu bytes\n", trep, ref_tool_held(state, sizeof state));
    }
    ask(TACHO_REQUEST_EXIT, 0, state, room);
    ask(TACHO_REQUEST_STOP, 0, state, room);
    puts("slow tool: all was downloaded");
    return 0;
}

/* Sends data to the unit and wants a reply that begins with this SID. */
static bool replied(const uint8_t *data, size_t len, uint8_t sid)
{
    static uint8_t frame[300];
    size_t n = ref_frame_write(data, len, false, frame, sizeof frame).len;
    put(frame, n);
    return get(frame) > REF_FRAME_DATA && frame[REF_FRAME_DATA] == sid;
}

/* The rate that the unit's end of the line has, once it had time to set it. */
static bool is_set(const char *baud)
{
    static const struct { const char *baud; speed_t speed; } known[] = {
        {"9600", B9600}, {"19200", B19200}, {"38400", B38400}, {"57600", B57600}, {"115200", B115200},
    };
    struct termios t;
    clock_pause(200);
    if (tcgetattr(other, &t)) return false;
    for (size_t i = 0; i < sizeof known / sizeof *known; i++)
        if (strcmp(known[i].baud, baud) == 0 && cfgetospeed(&t) == known[i].speed) return true;
    fprintf(stderr, "the port is not at %s baud\n", baud);
    return false;
}

static int rate(int count, char **rates)
{
    static uint8_t frame[300];
    uint8_t start[] = {0x81, REF_UNIT_ADDRESS, REF_TOOL_ADDRESS, 0x81, 0};
    start[4] = ref_checksum(start, 4);
    size_t heard = 0;
    /* what comes before the unit has opened its port is dropped, so the start is sent up to three times */
    clock_pause(300);
    for (int i = 0; i < 3 && heard == 0; i++) {
        put(start, sizeof start);
        heard = get(frame);
    }
    if (heard == 0 || !is_set("9600") || !replied((const uint8_t[]){0x10, 0x81}, 2, 0x50)) return 1;
    for (int i = 0; i < count; i++) {
        uint8_t verify[] = {0x87, 0x01, 0x01, (uint8_t)(2 + i)}, set[] = {0x87, 0x02, 0x03};
        uint8_t out[16];
        if (!replied(verify, sizeof verify, 0xC7)) return 1;
        put(out, ref_frame_write(set, sizeof set, false, out, sizeof out).len);
        if (!is_set(rates[i])) return 1;
    }
    if (!replied((const uint8_t[]){0x82}, 1, 0xC2)) return 1;
    puts("the port had every rate");
    return 0;
}

/* A pseudo-terminal whose other end is kept open here too. */
static bool make_line(const char *file)
{
    char path[128];
    fd = posix_openpt(O_RDWR | O_NOCTTY);
    if (fd < 0 || grantpt(fd) || unlockpt(fd) || ptsname_r(fd, path, sizeof path - 1)) return false;
    if ((other = open(path, O_RDWR | O_NOCTTY)) < 0) return false;
    strcat(path, "\n");
    return file_write(file, (const unsigned char *)path, strlen(path));
}

int main(int argc, char **argv)
{
    struct termios t;
    if (argc < 4) return 2;
    bool is_unit = strcmp(argv[1], "unit") == 0, is_rate = strcmp(argv[1], "rate") == 0;
    if (is_unit || is_rate ? !make_line(argv[2]) : (fd = open(argv[2], O_RDWR | O_NOCTTY)) < 0) return 2;
    if (tcgetattr(fd, &t)) return 2;
    cfmakeraw(&t);
    tcsetattr(fd, TCSANOW, &t);
    if (is_unit) return unit(argv[3]);
    return is_rate ? rate(argc - 3, argv + 3) : tool(argc - 3, argv + 3);
}

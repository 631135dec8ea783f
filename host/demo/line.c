#define _GNU_SOURCE
#include "line.h"

#include "clock.h"
#include "tacho.h"

#include <errno.h>
#include <fcntl.h>
#include <poll.h>
#include <stdio.h>
#include <stdlib.h>
#include <string.h>
#include <termios.h>
#include <unistd.h>

static const struct { unsigned long baud; speed_t speed; } speeds[] = {
    {9600, B9600}, {19200, B19200}, {38400, B38400}, {57600, B57600}, {115200, B115200}, {230400, B230400},
};

static bool speed_of(unsigned long baud, speed_t *speed)
{
    for (size_t i = 0; i < sizeof speeds / sizeof *speeds; i++)
        if (speeds[i].baud == baud) {
            *speed = speeds[i].speed;
            return true;
        }
    return false;
}

/* A pseudo-terminal has no parity, and refuses to be given one. */
static bool is_pseudo(int fd)
{
    char name[64];
    return ttyname_r(fd, name, sizeof name) == 0 && strncmp(name, "/dev/pts/", 9) == 0;
}

/* Raw, 8 data bits, one stop bit. */
static bool set_up(int fd, const line_port *port)
{
    struct termios t;
    speed_t speed;
    if (tcgetattr(fd, &t) || !speed_of(port->baud, &speed)) return false;
    cfmakeraw(&t);
    t.c_cflag &= ~(tcflag_t)(CSTOPB | PARENB | PARODD | CRTSCTS);
    t.c_cflag |= CLOCAL | CREAD;
    /* a byte with a wrong parity or stop bit reads as 00, and its string is refused (DDP_022, DDP_025) */
    t.c_iflag &= ~(tcflag_t)IGNPAR;
    t.c_iflag |= INPCK;
    if (strcmp(port->parity, "none") && !is_pseudo(fd)) t.c_cflag |= PARENB | (strcmp(port->parity, "odd") ? 0 : PARODD);
    cfsetispeed(&t, speed);
    cfsetospeed(&t, speed);
    return tcsetattr(fd, TCSANOW, &t) == 0;
}

bool line_port_check(const line_port *port)
{
    speed_t speed;
    if (strcmp(port->parity, "even") && strcmp(port->parity, "odd") && strcmp(port->parity, "none")) {
        fprintf(stderr, "--parity %s: wants even, odd or none\n", port->parity);
        return false;
    }
    if (!speed_of(port->baud, &speed)) {
        fprintf(stderr, "--rate %lu: wants 9600, 19200, 38400, 57600, 115200 or 230400\n", port->baud);
        return false;
    }
    return true;
}

bool line_open(line *l, const char *path, const line_port *port)
{
    if (!line_port_check(port)) return false;
    l->fd = open(path, O_RDWR | O_NOCTTY | O_NONBLOCK);
    if (l->fd < 0) {
        fprintf(stderr, "'%s': %s\n", path, strerror(errno));
        return false;
    }
    if (!set_up(l->fd, port)) {
        fprintf(stderr, "'%s': not a serial port or pseudo-terminal, or not one that can be set up so\n", path);
        close(l->fd);
        return false;
    }
    tcflush(l->fd, TCIFLUSH); /* what came before belongs to nobody here */
    return true;
}

bool line_make(line *l, char *path, size_t path_len)
{
    l->fd = posix_openpt(O_RDWR | O_NOCTTY);
    if (l->fd >= 0 && !grantpt(l->fd) && !unlockpt(l->fd) && !ptsname_r(l->fd, path, path_len)) l->other = open(path, O_RDWR | O_NOCTTY);
    if (l->other < 0 || !set_up(l->other, &(line_port){9600, "none"})) {
        fprintf(stderr, "no pseudo-terminal can be made: %s\n", strerror(errno));
        return false;
    }
    fcntl(l->fd, F_SETFL, O_NONBLOCK);
    return true;
}

bool line_set_baud(line *l, unsigned long baud)
{
    struct termios t;
    speed_t speed;
    if (!speed_of(baud, &speed) || tcdrain(l->fd) || tcgetattr(l->fd, &t)) return false;
    cfsetispeed(&t, speed);
    cfsetospeed(&t, speed);
    return tcsetattr(l->fd, TCSADRAIN, &t) == 0;
}

static unsigned draw(line *l)
{
    l->random ^= l->random << 13;
    l->random ^= l->random >> 7;
    l->random ^= l->random << 17;
    return (unsigned)(l->random >> 20);
}

static bool put_all(line *l, const uint8_t *bytes, size_t len)
{
    while (len > 0) {
        ssize_t n = write(l->fd, bytes, len);
        if (n < 0 && (errno == EAGAIN || errno == EINTR)) {
            struct pollfd p = {l->fd, POLLOUT, 0};
            if (poll(&p, 1, 1000) <= 0) return false;
            continue;
        }
        if (n <= 0) return false;
        bytes += n;
        len -= (size_t)n;
    }
    return true;
}

/* Until all has gone: P4 counts from the end of a byte, P2 from the end of a request. */
static void drain(line *l)
{
    while (tcdrain(l->fd) && errno == EINTR) continue;
}

static bool put(line *l, const uint8_t *bytes, size_t len)
{
    if (l->times.rest) clock_pause(l->times.rest);
    size_t n = l->times.gap ? 1 : len;
    for (size_t i = 0; i < len; i += n) {
        if (i) clock_pause(l->times.gap);
        if (!put_all(l, bytes + i, n)) return false;
        drain(l);
    }
    return true;
}

bool line_send(line *l, const uint8_t *frame, size_t len)
{
    uint8_t spoiled[TACHO_FRAME_MOST];
    unsigned fate = draw(l) % 1000, lose = l->faults.lose, repeat = lose + l->faults.repeat, spoil = repeat + l->faults.spoil;
    if (len == 0 || len > sizeof spoiled) return len == 0;
    if (fate < lose) {
        l->lost++;
        return true;
    }
    if (fate < repeat) {
        l->repeated++;
        return put(l, frame, len) && put(l, frame, len);
    }
    if (fate < spoil) {
        l->spoiled++;
        memcpy(spoiled, frame, len);
        spoiled[draw(l) % len] ^= (uint8_t)(1 + draw(l) % 255);
        return put(l, spoiled, len);
    }
    return put(l, frame, len);
}

/* The length of a whole good frame at this place of what was received, else 0. */
static size_t good_at(const line *l, size_t at, bool at_tool)
{
    size_t n = tacho_frame_length(l->bytes + at, l->count - at);
    if (n == 0 || n > l->count - at) return 0;
    return tacho_frame_check_at(l->unit_address, l->tool_address, l->bytes + at, n, at_tool) == TACHO_OK ? n : 0;
}

/* Whether what stands at the front can no longer become a good frame: it has come whole and is none. */
static bool broken(const line *l)
{
    size_t n = tacho_frame_length(l->bytes, l->count);
    return n > 0 && n <= l->count;
}

/* Whether good frames stand from this place on, one at least and nothing behind them but the beginning of another. A good frame among
 * the data of a broken one is no such place: other data follows it. */
static bool frames_from(const line *l, size_t at, bool at_tool)
{
    size_t n = good_at(l, at, at_tool);
    if (n == 0) return false;
    while (n > 0 && (at += n) < l->count) n = good_at(l, at, at_tool);
    size_t next = tacho_frame_length(l->bytes + at, l->count - at);
    return at == l->count || next == 0 || next > l->count - at;
}

/* Where the good frames behind a broken front begin, else the end of what was received. */
static size_t broken_length(const line *l, bool at_tool)
{
    for (size_t at = 1; at < l->count; at++)
        if (frames_from(l, at, at_tool)) return at;
    return l->count;
}

static int hand_out(line *l, uint8_t *out, size_t out_len, size_t n)
{
    size_t copied = n < out_len ? n : out_len;
    memcpy(out, l->bytes, copied);
    memmove(l->bytes, l->bytes + n, l->count - n);
    l->count -= n;
    return (int)copied;
}

/* The string that can be handed out now, its length; 0 while it may go on. quiet: no byte came for the time of a silence. */
static size_t ready_length(const line *l, bool quiet, bool at_tool)
{
    size_t good = good_at(l, 0, at_tool), end;
    if (good || l->count == 0) return good;
    if (!quiet && l->count < sizeof l->bytes && !broken(l)) return 0;
    end = broken_length(l, at_tool);
    return quiet || end < l->count || l->count == sizeof l->bytes ? end : 0;
}

int line_receive(line *l, uint8_t *out, size_t out_len, unsigned long milliseconds, bool at_tool)
{
    long end = clock_now() + (long)milliseconds;
    for (bool quiet = false;;) {
        size_t n = ready_length(l, quiet, at_tool);
        if (n) return hand_out(l, out, out_len, n);
        long left = l->count ? (long)l->times.silence : end - clock_now();
        struct pollfd p = {l->fd, POLLIN, 0};
        int ready = poll(&p, 1, left < 0 ? 0 : (int)left);
        if (ready < 0 && errno != EINTR) return -1;
        if (ready == 0) {
            if (l->count == 0) return 0;
            quiet = true;
        }
        if (ready <= 0) continue;
        ssize_t got = read(l->fd, l->bytes + l->count, sizeof l->bytes - l->count);
        if (got > 0) l->count += (size_t)got;
        else if (got == 0 || (errno != EAGAIN && errno != EINTR)) return -1;
    }
}

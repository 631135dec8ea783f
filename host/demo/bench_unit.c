/* A vehicle unit on the bench: serves a store file over a serial line or a pseudo-terminal. */
#include "line.h"
#include "options.h"
#include "tacho.h"

#include <limits.h>
#include <stdio.h>
#include <stdlib.h>
#include <string.h>

static const char help[] =
    "bench_unit: a teaching vehicle unit that serves a store file\n"
    "  --store FILE     the bench store (docs/PROTOCOL.md); bytes behind it are not looked at\n"
    "  --line PATH      the serial port to listen on: raw, 8 data bits, one stop bit, 9,600 baud at first; the unit changes the rate\n"
    "                   where the tool confirms a change\n"
    "  --pty FILE       make a pseudo-terminal instead, and write the path of its other end to FILE;\n"
    "                   --rate and --parity have no effect on it\n"
    "  --rate N         keep the port at this baud rate\n"
    "  --parity WHICH   even, odd or none (default even: Appendix 6 asks for it, which is not among this\n"
    "                   build's sources)\n"
    "  --unit XX        the unit's address, two hexadecimal digits, with or without 0x in front (default EE)\n"
    "  --tool XX        the tool's address (default F0)\n"
    "                   Both programs must be given the same two addresses, and the two must differ.\n"
    "  --kind N         0 generation 1, 1 generation 2 version 1, 2 generation 2 version 2 (default 2)\n"
    "  --silence N      so many milliseconds without a byte end a string (P4 is at most 20; default 25: a byte takes over 1 by itself,\n"
    "                   and some adapters hand bytes on late)\n"
    "  --delay N        milliseconds from a request to its reply (P2, 20 to 1,000; default 20)\n"
    "  --gap N          milliseconds between the bytes of a reply (P1, 0 to 20; default 0)\n"
    "  --lose N --repeat N --spoil N   of a thousand replies (default 0)\n"
    "  --seed N         of the line's faults (default 1)\n"
    "  --idle N         end after N seconds without a byte (default 10)\n"
    "  --list           write what the store holds, in the form of download's --answers, and end\n"
    "  --stream FILE    write the store's stream to the file, each answer as 76, TREP, data, back to back (DDP_034), and end\n"
    "Ends with status 0 half a second after communication was stopped, unless it is started again, 1 when the line was idle or is gone,\n"
    "2 for bad options or files.\n";

/* The rates of link control, 1 to 5. */
static const unsigned long bauds[] = {0, 9600, 19200, 38400, 57600, 115200};

/* Without --rate the port follows the unit's rate, beginning at 9,600. */
#define RATE_FOLLOWED ULONG_MAX

typedef struct {
    const char *store, *line, *pty, *stream, *parity, *unit, *tool;
    uint8_t unit_address, tool_address;
    unsigned long kind, rate, lose, repeat, spoil, seed, idle, silence, delay, gap;
    bool list, help;
} settings;

static line_port port_of(const settings *s)
{
    return (line_port){s->rate == RATE_FOLLOWED ? bauds[1] : s->rate, s->parity};
}

static bool read_settings(int argc, char **argv, settings *s)
{
    const program_option options[] = {
        {"store", &s->store, NULL, 0, NULL},     {"line", &s->line, NULL, 0, NULL},        {"pty", &s->pty, NULL, 0, NULL},
        {"rate", NULL, &s->rate, 230400, NULL},  {"parity", &s->parity, NULL, 0, NULL},    {"kind", NULL, &s->kind, 2, NULL},
        {"silence", NULL, &s->silence, 10000, NULL}, {"delay", NULL, &s->delay, 60000, NULL}, {"gap", NULL, &s->gap, 1000, NULL},
        {"lose", NULL, &s->lose, 1000, NULL},    {"repeat", NULL, &s->repeat, 1000, NULL}, {"spoil", NULL, &s->spoil, 1000, NULL},
        {"seed", NULL, &s->seed, 0xFFFFFFFFUL, NULL}, {"idle", NULL, &s->idle, 86400, NULL}, {"help", NULL, NULL, 0, &s->help},
        {"list", NULL, NULL, 0, &s->list},       {"stream", &s->stream, NULL, 0, NULL},    {"unit", &s->unit, NULL, 0, NULL},
        {"tool", &s->tool, NULL, 0, NULL},
    };
    if (!options_read(argc, argv, options, sizeof options / sizeof *options, 0)) return false;
    if (s->help) return true;
    if (!addresses_read(s->unit, s->tool, &s->unit_address, &s->tool_address)) return false;
    if (!s->store || !!s->line + !!s->pty + !!s->stream + s->list != 1) {
        fputs("--store and one of --line, --pty, --list and --stream are needed; --help says more\n", stderr);
        return false;
    }
    line_port port = port_of(s);
    return line_port_check(&port) && faults_check(s->lose, s->repeat, s->spoil);
}

/* Says what is broken in the store, and where. The first four bytes alone, which are its header, have the fault 13 at the count of answers:
 * so the count of a broken store is known too. */
static void say_store_fault(const char *path, const uint8_t *store, size_t store_len, tacho_fault f)
{
    size_t header = 4, count = store_len < header ? 0 : tacho_store_fault(store, header).position;
    fprintf(stderr, "'%s': %s (%u): ", path, tacho_number_text(f.number), f.number);
    if (store_len < header) fputs("there is no whole header\n", stderr);
    else if (f.number == TACHO_STORE_SHORT || f.number == TACHO_STORE_BOUNDS)
        fprintf(stderr, "the header's count of answers is %zu\n", count);
    else if (f.number == TACHO_STORE_ENTRY && f.position == count)
        fprintf(stderr, "the stream is longer than its answers, of which there are %zu\n", count);
    else fprintf(stderr, "%s %zu of %zu, counted from 0\n", f.number == TACHO_STORE_ENTRY ? "entry" : "answer", f.position, count);
}

/* Checks the store and makes the unit. False with a message. */
static bool ready(const settings *s, const uint8_t *store, size_t store_len, uint8_t *state)
{
    tacho_fault fault = tacho_store_fault(store, store_len);
    if (fault.number != TACHO_OK) {
        say_store_fault(s->store, store, store_len, fault);
        return false;
    }
    uint8_t number = tacho_unit_fresh((uint8_t)s->kind, state, TACHO_UNIT_STATE);
    if (number != TACHO_OK) fprintf(stderr, "--kind %lu: %s (%u)\n", s->kind, tacho_number_text(number), number);
    return number == TACHO_OK;
}

/* What a checked store holds, as 00,31,32@86400: the status. */
static int list(const uint8_t *store, size_t store_len)
{
    size_t count = tacho_store_count(store, store_len).count;
    for (size_t k = 0; k < count; k++) {
        tacho_held h = tacho_store_answer(store, store_len, k);
        printf(h.day ? "%s%02X@%lu" : "%s%02X", k ? "," : "", h.trep, (unsigned long)h.day);
    }
    return putchar('\n') < 0 || fflush(stdout) ? 2 : 0;
}

static int write_stream(const char *path, const uint8_t *store, size_t store_len)
{
    tacho_part stream = tacho_store_stream(store, store_len);
    return file_write(path, store + stream.start, stream.len) ? 0 : 2;
}

static bool open_line(line *l, const settings *s)
{
    char path[128];
    line_port port = port_of(s);
    if (s->line) return line_open(l, s->line, &port);
    if (!line_make(l, path, sizeof path)) return false;
    size_t n = strlen(path);
    path[n] = '\n';
    return file_write(s->pty, (const unsigned char *)path, n + 1);
}

/* Serves until communication was stopped, the line is idle or gone: the status. */
static int serve(line *l, uint8_t *state, const uint8_t *store, size_t store_len, const settings *s)
{
    unsigned long heard = 0, quiet = 0;
    bool stopped = false;
    int n = 0;
    /* a closed unit stays for half a second: the tool may start again */
    while (n >= 0 && quiet < (stopped ? 5 : s->idle * 10)) {
        uint8_t string[LINE_STRING_MOST], reply[TACHO_FRAME_MOST];
        n = line_receive(l, string, sizeof string, 100, false);
        quiet = n > 0 ? 0 : quiet + 1;
        if (n <= 0) continue;
        heard++;
        size_t rate = tacho_unit_rate(state, TACHO_UNIT_STATE), phase = tacho_unit_phase(state, TACHO_UNIT_STATE);
        tacho_written w = tacho_unit_step_at(s->unit_address, s->tool_address, state, TACHO_UNIT_STATE, store, store_len, string,
                                             (size_t)n, reply, sizeof reply);
        if (w.number == TACHO_OK && !line_send(l, reply, w.len)) n = -1;
        size_t now = tacho_unit_rate(state, TACHO_UNIT_STATE);
        if (s->line && s->rate == RATE_FOLLOWED && now != rate && !line_set_baud(l, bauds[now]))
            fprintf(stderr, "unit: no rate of %lu baud here\n", bauds[now]);
        if (tacho_unit_phase(state, TACHO_UNIT_STATE) != TACHO_PHASE_CLOSED) stopped = false;
        else if (phase != TACHO_PHASE_CLOSED) stopped = true;
    }
    printf("unit: %lu strings heard; of its replies %u lost, %u repeated, %u spoiled\n", heard, l->lost, l->repeated, l->spoiled);
    if (stopped) return 0;
    if (n < 0) fputs("unit: the line is gone\n", stderr);
    else fprintf(stderr, "unit: the line was idle for %lu seconds\n", s->idle);
    return 1;
}

int main(int argc, char **argv)
{
    settings s = {.parity = "even", .rate = RATE_FOLLOWED, .kind = 2, .seed = 1, .idle = 10,
                  .silence = 25, .delay = 20, .unit_address = TACHO_UNIT_ADDRESS, .tool_address = TACHO_TOOL_ADDRESS};
    size_t store_len;
    uint8_t state[TACHO_UNIT_STATE];
    if (!read_settings(argc, argv, &s)) return 2;
    if (s.help) return help_said(help);
    uint8_t *store = file_read(s.store, 1 << 20, &store_len);
    if (!store) return 2;
    if (!ready(&s, store, store_len, state)) {
        free(store);
        return 2;
    }
    if (s.list || s.stream) {
        int status = s.list ? list(store, store_len) : write_stream(s.stream, store, store_len);
        free(store);
        return status;
    }
    line l = {.fd = -1, .other = -1, .unit_address = s.unit_address, .tool_address = s.tool_address, .random = s.seed * 2 + 1};
    l.faults = (line_faults){(unsigned)s.lose, (unsigned)s.repeat, (unsigned)s.spoil};
    l.times = (line_times){s.silence, s.gap, s.delay};
    int status = open_line(&l, &s) ? serve(&l, state, store, store_len, &s) : 2;
    free(store);
    return status;
}

/* The download tool: asks a unit for answers over a serial line, and writes them to a file as DDP_034 has it. */
#include "clock.h"
#include "line.h"
#include "options.h"
#include "tacho.h"

#include <ctype.h>
#include <stdio.h>
#include <stdlib.h>
#include <string.h>
#include <unistd.h>

static const char help[] =
    "download: downloads answers from a vehicle unit\n"
    "  --line PATH      the serial port, or the other end of a unit's pseudo-terminal: raw, 8 data bits, one stop bit\n"
    "  --rate N         baud rate of the port (default 9600)\n"
    "  --parity WHICH   even, odd or none (default even: Appendix 6 asks for it, which is not among this\n"
    "                   build's sources)\n"
    "  --answers LIST   what to ask for, in this order: TREPs in hexadecimal, activities with any second of the day since 1970 (0 where\n"
    "                   none stands), as 00,31,32@129600,33,24,35; what is listed twice comes twice, a day by two of its seconds too\n"
    "  --out FILE       where the stream goes when all was downloaded: each answer as 76, TREP, data, back to back (DDP_034)\n"
    "  --unit XX        the unit's address, two hexadecimal digits, with or without 0x in front (default EE)\n"
    "  --tool XX        the tool's address (default F0)\n"
    "                   Both programs must be given the same two addresses, and the two must differ.\n"
    "  --wait N         milliseconds until a reply begins (P2, at most 1,000; default 1000); 5,000 behind 'response pending' (P3)\n"
    "  --silence N      so many milliseconds without a byte end a string (P1 is at most 20; default 25: a byte takes over 1 by itself,\n"
    "                   and some adapters hand bytes on late)\n"
    "  --rest N         milliseconds from a reply to the next request (P3, at least 10; default 10)\n"
    "  --gap N          milliseconds between the bytes of a request (P4, 5 to 20; default 5)\n"
    "  --tries N        how often a request is begun, each with three sendings (DDP_027; default 1)\n"
    "  --lose N --repeat N --spoil N   of a thousand frames (default 0)\n"
    "  --seed N         of the faults (default 2)\n"
    "Ends with status 0 when all was downloaded, 1 when the unit refused or did not answer or the line is gone, 2 for bad options or files.\n";

/* The wait for a reply behind "response pending": P2 is then as long as P3 may be (DDP_019). */
enum { PENDING_MS = 5000 };

static line l = {.fd = -1, .other = -1, .unit_address = TACHO_UNIT_ADDRESS, .tool_address = TACHO_TOOL_ADDRESS};
static uint8_t state[TACHO_TOOL_STATE], room[TACHO_ANSWER_MOST];
static unsigned long wait_ms = 1000, tries = 1;

static size_t held(void)
{
    return tacho_tool_held(state, sizeof state);
}

static size_t outcome(void)
{
    return tacho_tool_outcome(state, sizeof state);
}

/* The calls of the tool at the line's addresses. */

static tacho_written begin(uint8_t *tool, uint8_t request, uint8_t trep, uint32_t day, uint8_t *out)
{
    return tacho_tool_begin_at(l.unit_address, l.tool_address, tool, TACHO_TOOL_STATE, request, trep, day, out, TACHO_FRAME_MOST);
}

static tacho_written arrived(const uint8_t *string, size_t len, uint8_t *out)
{
    return tacho_tool_arrived_at(l.unit_address, l.tool_address, state, sizeof state, string, len, room, sizeof room, out,
                                 TACHO_FRAME_MOST);
}

static tacho_written wait_ended(uint8_t *out)
{
    return tacho_tool_wait_ended_at(l.unit_address, l.tool_address, state, sizeof state, room, sizeof room, out, TACHO_FRAME_MOST);
}

static void progress(const char *what, bool end)
{
    static size_t shown;
    if (!isatty(STDERR_FILENO)) return;
    if (end || held() < shown || held() >= shown + 4096) {
        shown = end ? 0 : held();
        fprintf(stderr, "\r%-46s %8zu bytes%s", what, held(), end ? "\r" : "");
        fflush(stderr);
    }
}

/* Whether the unit says that it has heard the request and its response is pending. */
static bool is_pending(const uint8_t *string, size_t len)
{
    tacho_part data = tacho_frame_data_at(l.unit_address, l.tool_address, string, len, true);
    return data.number == TACHO_OK && data.len == 3 && string[data.start] == 0x7F && string[data.start + 2] == 0x78;
}

/* One request to its end; false with a message where the line is gone or a call was refused. */
static bool run(uint8_t request, uint8_t trep, uint32_t day, const char *what)
{
    uint8_t out[TACHO_FRAME_MOST], string[LINE_STRING_MOST];
    long end = 0;
    tacho_written w = begin(state, request, trep, day, out);
    while (w.number == TACHO_OK) {
        if (!line_send(&l, out, w.len)) break;
        if (outcome() != TACHO_OUTCOME_WAITING) return true;
        /* the wait counts from the last sending: frames that the tool ignores do not make it longer */
        if (w.len > 0) end = clock_now() + (long)wait_ms;
        long left = end - clock_now();
        int n = left > 0 ? line_receive(&l, string, sizeof string, (unsigned long)left, true) : 0;
        if (n < 0) break;
        if (n > 0 && is_pending(string, (size_t)n) && end < clock_now() + PENDING_MS) end = clock_now() + PENDING_MS;
        w = n > 0 ? arrived(string, (size_t)n, out) : wait_ended(out);
        progress(what, outcome() != TACHO_OUTCOME_WAITING);
    }
    if (w.number) fprintf(stderr, "%s: %s (%u)\n", what, tacho_number_text(w.number), w.number);
    else fprintf(stderr, "%s: the line is gone\n", what);
    return false;
}

/* The same, begun again where no answer came; false with a message. */
static bool ask(uint8_t request, uint8_t trep, uint32_t day, const char *what)
{
    uint8_t late[LINE_STRING_MOST];
    unsigned long begun = 0;
    do {
        /* a request is begun again on an empty line: what is still on its way is let pass, for the time of one wait */
        long end = clock_now() + (long)wait_ms;
        for (long left; begun > 0 && (left = end - clock_now()) > 0;)
            if (line_receive(&l, late, sizeof late, (unsigned long)left, true) <= 0) break;
        if (!run(request, trep, day, what)) return false;
        begun++;
    } while (begun < tries && outcome() == TACHO_OUTCOME_NO_ANSWER);
    switch (outcome()) {
    case TACHO_OUTCOME_DONE: return true;
    case TACHO_OUTCOME_NO_ANSWER: fprintf(stderr, "%s: no answer after %lu sendings\n", what, begun * 3); break;
    case TACHO_OUTCOME_NO_ROOM: fprintf(stderr, "%s: the answer does not fit %d bytes\n", what, TACHO_ANSWER_MOST); break;
    case TACHO_OUTCOME_REFUSED: {
        uint8_t code = (uint8_t)tacho_tool_code(state, sizeof state);
        fprintf(stderr, "%s: the unit says %02X, %s\n", what, code, tacho_code_text(code));
        break;
    }
    default: break;
    }
    return false;
}

/* The next answer of the list: false where it is malformed, as by a blank, a sign or a comma behind the last one. */
static bool next_answer(const char **list, uint8_t *trep, uint32_t *day)
{
    char *end;
    unsigned long t = strtoul(*list, &end, 16), d = 0;
    if (!isxdigit((unsigned char)**list) || t > 0xFF) return false;
    if (*end == '@') {
        const char *from = end + 1;
        d = strtoul(from, &end, 10);
        if (!isdigit((unsigned char)*from) || d > 0xFFFFFFFFUL) return false;
    }
    if (*end != 0 && (*end != ',' || end[1] == 0)) return false;
    *trep = (uint8_t)t;
    *day = (uint32_t)d;
    *list = *end ? end + 1 : end;
    return true;
}

/* Whether a request for this TREP carries a day: it is longer then. */
static bool dated(uint8_t trep)
{
    uint8_t fresh[TACHO_TOOL_STATE], out[TACHO_FRAME_MOST];
    tacho_tool_fresh(fresh, sizeof fresh);
    return begin(fresh, TACHO_REQUEST_TRANSFER, trep, 0, out).len > 7;
}

/* Whether the list is one, and the table has all that it asks for; false with a message. */
static bool check_answers(const char *answers)
{
    uint8_t out[TACHO_FRAME_MOST], trep = 0;
    uint32_t day = 0;
    do {
        const char *from = answers;
        if (!next_answer(&answers, &trep, &day)) {
            fprintf(stderr, "--answers: '%s' is no list of TREPs\n", from);
            return false;
        }
        tacho_tool_fresh(state, sizeof state);
        tacho_written w = begin(state, TACHO_REQUEST_TRANSFER, trep, day, out);
        if (w.number) {
            fprintf(stderr, "--answers: '%.*s': %s (%u)\n", (int)strcspn(from, ","), from, tacho_number_text(w.number), w.number);
            return false;
        }
    } while (*answers);
    return true;
}

/* The stream so far; it goes to the file when all was downloaded. */
static uint8_t *stream;
static size_t stream_len;

static bool keep(const uint8_t *bytes, size_t len)
{
    uint8_t *longer = realloc(stream, stream_len + len);
    if (!longer) {
        fputs("no memory for the stream\n", stderr);
        return false;
    }
    stream = longer;
    memcpy(stream + stream_len, bytes, len);
    stream_len += len;
    return true;
}

/* Closes the session. A unit that has stopped is silent, so a lost reply cannot be told from a dead line. */
static void stop(void)
{
    if (!run(TACHO_REQUEST_STOP, 0, 0, "stop communication") || outcome() != TACHO_OUTCOME_DONE)
        fputs("stop communication: not confirmed by the unit\n", stderr);
}

/* The same as ask, for what a session is open for: a unit that still speaks is told of the end. */
static bool ask_or_stop(uint8_t request, uint8_t trep, uint32_t day, const char *what)
{
    if (ask(request, trep, day, what)) return true;
    if (outcome() == TACHO_OUTCOME_REFUSED || outcome() == TACHO_OUTCOME_NO_ROOM) stop();
    return false;
}

static int download(const char *answers)
{
    unsigned count = 0;
    if (!ask(TACHO_REQUEST_START, 0, 0, "start communication") || !ask_or_stop(TACHO_REQUEST_SESSION, 0, 0, "diagnostic session")
        || !ask_or_stop(TACHO_REQUEST_UPLOAD, 0, 0, "request upload"))
        return 1;
    while (*answers) {
        char what[64];
        uint8_t trep = 0;
        uint32_t day = 0;
        next_answer(&answers, &trep, &day);
        snprintf(what, sizeof what, dated(trep) ? "%s %02X, second %u (day %u)" : "%s %02X", tacho_type_text(trep), trep, (unsigned)day,
                 (unsigned)day / 86400);
        if (!ask_or_stop(TACHO_REQUEST_TRANSFER, trep, day, what)) return 1;
        if (!keep(room, held())) return 2;
        printf("  %-46s %8zu bytes\n", what, held());
        count++;
    }
    if (!ask_or_stop(TACHO_REQUEST_EXIT, 0, 0, "transfer exit")) return 1;
    stop();
    printf("tool: %u answers, %zu bytes; of its frames %u lost, %u repeated, %u spoiled\n", count, stream_len, l.lost, l.repeated, l.spoiled);
    return 0;
}

int main(int argc, char **argv)
{
    const char *line_path = NULL, *answers = NULL, *out_path = NULL, *parity = "even", *unit = NULL, *tool = NULL;
    unsigned long rate = 9600, lose = 0, repeat = 0, spoil = 0, seed = 2;
    line_times times = {25, 5, 10};
    bool wants_help = false;
    const program_option options[] = {
        {"line", &line_path, NULL, 0, NULL},   {"answers", &answers, NULL, 0, NULL},         {"out", &out_path, NULL, 0, NULL},
        {"rate", NULL, &rate, 230400, NULL},   {"parity", &parity, NULL, 0, NULL},           {"wait", NULL, &wait_ms, 60000, NULL},
        {"silence", NULL, &times.silence, 10000, NULL}, {"rest", NULL, &times.rest, 60000, NULL}, {"gap", NULL, &times.gap, 1000, NULL},
        {"tries", NULL, &tries, 1000, NULL},   {"lose", NULL, &lose, 1000, NULL},            {"repeat", NULL, &repeat, 1000, NULL},
        {"spoil", NULL, &spoil, 1000, NULL},   {"seed", NULL, &seed, 0xFFFFFFFFUL, NULL},    {"help", NULL, NULL, 0, &wants_help},
        {"unit", &unit, NULL, 0, NULL},        {"tool", &tool, NULL, 0, NULL},
    };
    if (!options_read(argc, argv, options, sizeof options / sizeof *options, 0)) return 2;
    if (wants_help) return help_said(help);
    if (!addresses_read(unit, tool, &l.unit_address, &l.tool_address)) return 2;
    if (!line_path || !answers || !out_path) {
        fputs("--line, --answers and --out are needed; --help says more\n", stderr);
        return 2;
    }
    if (!faults_check(lose, repeat, spoil) || !check_answers(answers) || !file_may_be_written(out_path)) return 2;
    l.faults = (line_faults){(unsigned)lose, (unsigned)repeat, (unsigned)spoil};
    l.times = times;
    l.random = seed * 2 + 1;
    tacho_tool_fresh(state, sizeof state);
    if (!line_open(&l, line_path, &(line_port){rate, parity})) return 2;
    int status = download(answers);
    if (status == 0 && !file_write(out_path, stream, stream_len)) status = 2;
    free(stream);
    return status;
}

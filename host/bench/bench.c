/*
 * The proved calls against the plain C reference: same machine, same inputs, repetitions interleaved. The plain C is built -O2, the
 * proved code by the kit (-O3).
 *
 *   bench                            every case: nanoseconds a call, and the ratio
 *   bench CASE proved|reference N    one case N times, for counting instructions
 *   bench --names                    the names of the cases
 */
#define _POSIX_C_SOURCE 200809L
#include "reference.h"

#include <stdio.h>
#include <stdlib.h>
#include <string.h>
#include <time.h>

/* The calls that are measured, of one side. */
typedef struct {
    __typeof__(tacho_checksum) *checksum;
    __typeof__(tacho_frame_check) *frame_check;
    __typeof__(tacho_frame_write) *frame_write;
    __typeof__(tacho_store_check) *store_check;
    __typeof__(tacho_store_append) *store_append;
    __typeof__(tacho_array_at) *array_at;
    __typeof__(tacho_record_at) *record_at;
    __typeof__(tacho_unit_step) *unit_step;
    __typeof__(tacho_tool_begin) *tool_begin;
    __typeof__(tacho_tool_arrived) *tool_arrived;
    __typeof__(tacho_frame_write_at) *frame_write_at;
    __typeof__(tacho_unit_step_at) *unit_step_at;
    __typeof__(tacho_tool_arrived_at) *tool_arrived_at;
} side;

#define SIDE(P)                                                                  \
    {                                                                            \
        .checksum = P##_checksum, .frame_check = P##_frame_check,                \
        .frame_write = P##_frame_write, .store_check = P##_store_check,          \
        .store_append = P##_store_append, .array_at = P##_array_at,              \
        .record_at = P##_record_at, .unit_step = P##_unit_step,                  \
        .tool_begin = P##_tool_begin, .tool_arrived = P##_tool_arrived,          \
        .frame_write_at = P##_frame_write_at, .unit_step_at = P##_unit_step_at,  \
        .tool_arrived_at = P##_tool_arrived_at,                                  \
    }
static const side proved = SIDE(tacho), reference = SIDE(ref);

/* A bench store in a buffer with room for more. */
typedef struct {
    uint8_t bytes[TACHO_STORE_MOST];
    size_t len;
} store;

enum { ANSWERS_MOST = 64, RECORD_SIZE = 5, RECORDS = 9999, ARRAY_HEADER = 5 };

/* Other addresses than the lab's. */
enum { OTHER_UNIT = TACHO_UNIT_ADDRESS, OTHER_TOOL = 0xFB };

/* The inputs, which no case changes: a case that changes a state or a store has a copy of it. */
static store one, many, all_but_one, full, rising, mixed, falling;
static uint8_t granted[TACHO_UNIT_STATE], fresh[TACHO_TOOL_STATE], begun[TACHO_TOOL_STATE];
static uint8_t answer[TACHO_ANSWER_MOST], frame[TACHO_FRAME_MOST], other_frame[TACHO_FRAME_MOST];
static uint8_t body[ARRAY_HEADER + RECORD_SIZE * RECORDS];

/* What the cases write to. */
static uint8_t work[TACHO_STORE_MOST], room[TACHO_ANSWER_MOST], out[TACHO_FRAME_MOST];
static volatile size_t sink;

/* Shorter than a turn of eight, one turn, turns and a rest; a full frame, and all of the longest answer. */
static void sum_5(const side *c)
{
    sink += c->checksum(answer, 5);
}

static void sum_8(const side *c)
{
    sink += c->checksum(answer, 8);
}

static void sum_17(const side *c)
{
    sink += c->checksum(answer, 17);
}

static void sum_260(const side *c)
{
    sink += c->checksum(frame, sizeof frame);
}

static void sum_60000(const side *c)
{
    sink += c->checksum(answer, sizeof answer);
}

static void frame_judged(const side *c)
{
    sink += c->frame_check(frame, sizeof frame, true);
}

static void unit_call(const side *c, const store *s)
{
    uint8_t state[TACHO_UNIT_STATE], request[8];
    memcpy(state, granted, sizeof state);
    size_t n = c->frame_write((const uint8_t[]){0x36, 0x00}, 2, false, request, sizeof request).len;
    sink += c->unit_step(state, sizeof state, s->bytes, s->len, request, n, out, sizeof out).len;
}

static void unit_call_1(const side *c)
{
    unit_call(c, &one);
}

static void unit_call_64(const side *c)
{
    unit_call(c, &many);
}

/* The same at other addresses. */
static void unit_call_elsewhere(const side *c)
{
    uint8_t state[TACHO_UNIT_STATE], request[8];
    memcpy(state, granted, sizeof state);
    size_t n = c->frame_write_at(OTHER_UNIT, OTHER_TOOL, (const uint8_t[]){0x36, 0x00}, 2, false, request, sizeof request).len;
    sink += c->unit_step_at(OTHER_UNIT, OTHER_TOOL, state, sizeof state, one.bytes, one.len, request, n, out, sizeof out).len;
}

static void arrival(const side *c)
{
    uint8_t state[TACHO_TOOL_STATE];
    memcpy(state, begun, sizeof state);
    sink += c->tool_arrived(state, sizeof state, frame, sizeof frame, room, sizeof room, out, sizeof out).len;
}

static void arrival_elsewhere(const side *c)
{
    uint8_t state[TACHO_TOOL_STATE];
    memcpy(state, begun, sizeof state);
    sink += c->tool_arrived_at(OTHER_UNIT, OTHER_TOOL, state, sizeof state, other_frame, sizeof other_frame, room, sizeof room, out,
                               sizeof out).len;
}

/* The tool puts a frame out until it is done: on this line nothing is lost. */
static void download(const side *c)
{
    uint8_t unit[TACHO_UNIT_STATE], tool[TACHO_TOOL_STATE], reply[TACHO_FRAME_MOST];
    memcpy(unit, granted, sizeof unit);
    memcpy(tool, fresh, sizeof tool);
    size_t n = c->tool_begin(tool, sizeof tool, TACHO_REQUEST_TRANSFER, 0x24, 0, out, sizeof out).len;
    while (n > 0) {
        size_t r = c->unit_step(unit, sizeof unit, full.bytes, full.len, out, n, reply, sizeof reply).len;
        n = c->tool_arrived(tool, sizeof tool, reply, r, room, sizeof room, out, sizeof out).len;
    }
    sink += room[sizeof room - 1]; /* the last byte of the answer */
}

static void check_1(const side *c)
{
    sink += c->store_check(full.bytes, full.len);
}

static void check_64(const side *c)
{
    sink += c->store_check(many.bytes, many.len);
}

/* A check looks for names that come twice: here they rise, stand in a fixed mixed order, or fall. Of `check_64` 63 rise, and the last is
 * the least. */
static void check_rising(const side *c)
{
    sink += c->store_check(rising.bytes, rising.len);
}

static void check_mixed(const side *c)
{
    sink += c->store_check(mixed.bytes, mixed.len);
}

static void check_falling(const side *c)
{
    sink += c->store_check(falling.bytes, falling.len);
}

static void append(const side *c)
{
    memcpy(work, all_but_one.bytes, all_but_one.len);
    sink += c->store_append(work, sizeof work, answer, 2000, 86400 * 1000).len;
}

static void records(const side *c)
{
    tacho_array a = c->array_at(body, sizeof body, 0);
    for (size_t k = 0; k < a.count; k++) sink += c->record_at(body, sizeof body, 0, k).start;
}

static const struct {
    const char *name;
    void (*run)(const side *);
    unsigned reps;
} cases[] = {
    {"checksum-of-5-bytes", sum_5, 200000},               {"checksum-of-8-bytes", sum_8, 200000},
    {"checksum-of-17-bytes", sum_17, 200000},             {"checksum-of-260-bytes", sum_260, 200000},
    {"checksum-of-60000-bytes", sum_60000, 2000},         {"frame-check-260-bytes", frame_judged, 200000},
    {"unit-call-1-answer", unit_call_1, 200000},          {"unit-call-64-answers", unit_call_64, 20000},
    {"unit-call-1-answer-ee-fb", unit_call_elsewhere, 200000},
    {"tool-arrival", arrival, 200000},                    {"tool-arrival-ee-fb", arrival_elsewhere, 200000},
    {"download-59998-bytes", download, 200},
    {"store-check-1-answer", check_1, 200000},            {"store-check-64-answers", check_64, 20000},
    {"store-check-64-rising-names", check_rising, 20000}, {"store-check-64-mixed-names", check_mixed, 20000},
    {"store-check-64-falling-names", check_falling, 20000},
    {"append-to-63-answers", append, 20000},              {"all-records-of-50000-bytes", records, 200},
};
enum { COUNT = sizeof cases / sizeof *cases, ROUNDS = 15 };

/* Ends the benchmark where an input could not be made as it was meant. */
static void made(bool as_meant, const char *what)
{
    if (as_meant) return;
    fprintf(stderr, "bench: %s was not made\n", what);
    exit(1);
}

/* The front of the answer goes into the store, under this TREP and day. */
static void put(store *s, uint8_t trep, size_t len, uint32_t day)
{
    answer[1] = trep;
    tacho_written w = tacho_store_append(s->bytes, sizeof s->bytes, answer, len, day);
    made(w.number == TACHO_OK, "a store");
    s->len = w.len;
}

static void make_stores(void)
{
    for (size_t i = 0; i < sizeof answer; i++) answer[i] = (uint8_t)(i * 31);
    answer[0] = 0x76;
    put(&one, 0x00, 4, 0);
    for (uint32_t day = 0; day < ANSWERS_MOST - 1; day++) put(&all_but_one, 0x32, 2, 86400 * day);
    many = all_but_one;
    put(&many, 0x00, 2, 0);
    for (uint32_t i = 0; i < ANSWERS_MOST; i++) {
        put(&rising, 0x32, 2, 86400 * i);
        put(&mixed, 0x32, 2, 86400 * ((i * 37 + 11) % ANSWERS_MOST)); /* 37 is odd: each day once */
        put(&falling, 0x32, 2, 86400 * (ANSWERS_MOST - 1 - i));
    }
    put(&full, 0x24, sizeof answer, 0);
    size_t n = tacho_sub_message(answer + 2, sizeof answer - 2, 0x24, 1, frame, sizeof frame).len;
    made(n == sizeof frame, "a full frame");
    n = tacho_sub_message_at(OTHER_UNIT, OTHER_TOOL, answer + 2, sizeof answer - 2, 0x24, 1, other_frame, sizeof other_frame).len;
    made(n == sizeof other_frame, "a full frame at other addresses");
    answer[1] = 0x22; /* what `append` puts last */
}

/* A unit that has granted an upload, by the frames of start, session and upload; a tool that has begun a transfer. */
static void make_states(void)
{
    uint8_t tool[TACHO_TOOL_STATE], reply[TACHO_FRAME_MOST];
    tacho_unit_fresh(TACHO_KIND_GENERATION_2_VERSION_2, granted, sizeof granted);
    tacho_tool_fresh(fresh, sizeof fresh);
    memcpy(tool, fresh, sizeof tool);
    for (uint8_t request = TACHO_REQUEST_START; request <= TACHO_REQUEST_UPLOAD; request++) {
        size_t n = tacho_tool_begin(tool, sizeof tool, request, 0, 0, out, sizeof out).len;
        n = tacho_unit_step(granted, sizeof granted, one.bytes, one.len, out, n, reply, sizeof reply).len;
        tacho_tool_arrived(tool, sizeof tool, reply, n, room, sizeof room, out, sizeof out);
    }
    made(tacho_unit_phase(granted, sizeof granted) == TACHO_PHASE_GRANTED, "a unit that has granted an upload");
    memcpy(begun, fresh, sizeof begun);
    tacho_tool_begin(begun, sizeof begun, TACHO_REQUEST_TRANSFER, 0x24, 0, out, sizeof out);
    made(tacho_tool_outcome(begun, sizeof begun) == TACHO_OUTCOME_WAITING, "a tool that has begun a transfer");
}

/* One record array that fills the body: type 0, size, number of records. */
static void make_body(void)
{
    const uint8_t header[ARRAY_HEADER] = {0, REF_TWO_BYTES(RECORD_SIZE), REF_TWO_BYTES(RECORDS)};
    memcpy(body, header, sizeof header);
    made(tacho_array_count(body, sizeof body).count == 1, "a body");
}

static double seconds(void)
{
    struct timespec t;
    clock_gettime(CLOCK_MONOTONIC, &t);
    return (double)t.tv_sec + (double)t.tv_nsec * 1e-9;
}

static double time_of(void (*run)(const side *), const side *of, unsigned reps)
{
    double from = seconds();
    for (unsigned i = 0; i < reps; i++) run(of);
    return (seconds() - from) / reps * 1e9;
}

/* One case so many times, for counting instructions: the status. */
static int run_one(const char *name, const char *which, unsigned long reps)
{
    const side *of = strcmp(which, "proved") ? &reference : &proved;
    for (size_t k = 0; k < COUNT; k++)
        if (strcmp(name, cases[k].name) == 0) {
            for (unsigned long i = 0; i < reps; i++) cases[k].run(of);
            return 0;
        }
    fprintf(stderr, "bench: there is no case %s; --names lists them\n", name);
    return 2;
}

static void run_all(void)
{
    printf("%-28s %12s %12s %8s\n", "case", "proved ns", "plain C ns", "ratio");
    for (size_t k = 0; k < COUNT; k++) {
        double least[2] = {1e18, 1e18};
        for (int i = 0; i < ROUNDS; i++) {
            double a = time_of(cases[k].run, &proved, cases[k].reps);
            double b = time_of(cases[k].run, &reference, cases[k].reps);
            if (a < least[0]) least[0] = a;
            if (b < least[1]) least[1] = b;
        }
        printf("%-28s %12.1f %12.1f %8.2f\n", cases[k].name, least[0], least[1], least[0] / least[1]);
    }
}

int main(int argc, char **argv)
{
    make_stores();
    make_states();
    make_body();
    if (argc == 4) return run_one(argv[1], argv[2], strtoul(argv[3], NULL, 10));
    if (argc == 2 && strcmp(argv[1], "--names") == 0) {
        for (size_t k = 0; k < COUNT; k++) puts(cases[k].name);
        return 0;
    }
    run_all();
    return 0;
}

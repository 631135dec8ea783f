/*
 * A day is any second in it (document 02, Req 03): the examples of the request's sheet, then activities of each kind, appended, looked up,
 * asked for, acknowledged and begun by seconds at the edges of days, and names outside activities, which have no days. What is wanted is
 * written down here byte for byte; the first second of a day stands in a table, or the second is made from it. The proved calls and the
 * reference are judged alike. A refused call changes nothing, and no call what it only reads or a byte outside its buffers.
 *
 *   days [SEED]
 */
#include "reference.h"
#include "spoilt.h"
#include "support.h"

#include <stdarg.h>
#include <stdio.h>
#include <stdlib.h>
#include <string.h>
#include <time.h>

/* The calls that meet a day, of one side. */
typedef struct {
    const char *name;
    __typeof__(tacho_store_fault) *store_fault;
    __typeof__(tacho_store_lookup) *store_lookup;
    __typeof__(tacho_store_answer) *store_answer;
    __typeof__(tacho_store_append) *store_append;
    __typeof__(tacho_unit_step) *unit_step;
    __typeof__(tacho_tool_begin) *tool_begin;
    __typeof__(tacho_tool_arrived) *tool_arrived;
    __typeof__(tacho_tool_wait_ended) *tool_wait_ended;
} side;

#define SIDE(words, P)                                                      \
    {                                                                       \
        .name = words, .store_fault = P##_store_fault,                      \
        .store_lookup = P##_store_lookup, .store_answer = P##_store_answer, \
        .store_append = P##_store_append, .unit_step = P##_unit_step,       \
        .tool_begin = P##_tool_begin, .tool_arrived = P##_tool_arrived,     \
        .tool_wait_ended = P##_tool_wait_ended,                             \
    }
static const side SIDES[] = {SIDE("the proved calls", tacho), SIDE("the reference", ref)};
static const side *calls;

/* A second, and the first second of its day. */
typedef struct {
    uint32_t second, first;
} instant;

/* Edges of days, of two and four bytes and of signed numbers. */
static const instant KNOWN[] = {
    {0, 0},
    {1, 0},
    {43200, 0},
    {65535, 0},
    {65536, 0},
    {86398, 0},
    {86399, 0},
    {86400, 86400}, /* 00 01 51 80 */
    {86401, 86400},
    {129600, 86400},
    {172799, 86400},
    {172800, 172800},
    {259199, 172800},
    {1700049600, 1700006400}, /* noon of day 19,676 */
    {0x7FFFFFFF, 2147472000}, /* day 24,855 */
    {0x80000000, 2147472000},
    {0xFFFE5380, 0xFFFE5380}, /* day 49,709 */
    {0xFFFFA4FF, 0xFFFE5380},
    {0xFFFFA500, 0xFFFFA500}, /* day 49,710, of 23,296 seconds */
    {0xFFFFA501, 0xFFFFA500},
    {0xFFFFFFFF, 0xFFFFA500},
};

/* Those, and three seconds of each of three days that are drawn, so that other seconds of these are tried too. */
enum { KNOWNS = sizeof KNOWN / sizeof *KNOWN, INSTANTS = KNOWNS + 9 };
static instant instants[INSTANTS];

static void make_instants(void)
{
    memcpy(instants, KNOWN, sizeof KNOWN);
    for (size_t k = KNOWNS; k < INSTANTS; k++) {
        uint32_t first = (k - KNOWNS) % 3 ? instants[k - 1].first : 86400 * random_below(49710);
        instants[k] = (instant){first + random_below(86400), first};
    }
}

/* The lengths of answers that are not split and split in two, and the data bytes of a full sub message; the longest store of the test, and
 * the bytes behind one that an answer is appended to. */
enum { SHORT = 3, SPLIT = 255, FULL = 251, STORE_ROOM = 4096, SPARE = 300 };

/* Buffers that end at an inaccessible page, what is being tried on them, and how many calls were judged. */
enum { STORE, ANSWER, STATE, FRAME, OUT, ROOM, LENT };
static guard lent[LENT];
static char trying[200];
static unsigned long judged;

static void try(const char *format, ...)
{
    va_list args;
    va_start(args, format);
    vsnprintf(trying, sizeof trying, format, args);
    va_end(args);
}

/* A call gave this number and this length. */
static void want_result(unsigned number, size_t len, unsigned wanted, size_t wanted_len)
{
    judged++;
    if (number == wanted && len == wanted_len) return;
    fail("%s, %s: gave number %u and %zu, wanted %u and %zu", calls->name, trying, number, len, wanted, wanted_len);
}

/* A lent buffer has these bytes after the call, and none before it was written. */
static void want_bytes(int i, const char *what, const uint8_t *wanted)
{
    guard_check(&lent[i], trying);
    if (memcmp(lent[i].at, wanted, lent[i].len) == 0) return;
    hex("is", lent[i].at, lent[i].len);
    hex("wanted", wanted, lent[i].len);
    fail("%s, %s: %s is not as wanted", calls->name, trying, what);
}

/* An answer that a store holds: TREP, the day of its entry and its length; and the answers of a store in their order. */
typedef struct {
    uint8_t trep;
    uint32_t day;
    size_t len;
} kept;

typedef struct {
    kept answers[64];
    size_t count;
} contents;

static void write_answer(uint8_t *out, kept a)
{
    out[0] = 0x76;
    out[1] = a.trep;
    for (size_t i = 2; i < a.len; i++) out[i] = (uint8_t)(i * 5 + a.trep);
}

/* Where answer i begins in the store; that behind the last one is the store's length. */
static size_t start_of(const contents *s, size_t i)
{
    size_t start = entry_at(s->count);
    for (size_t k = 0; k < i; k++) start += s->answers[k].len;
    return start;
}

/* The store with these answers, field by field: its length. */
static size_t write_store(uint8_t *out, const contents *s)
{
    size_t stream = entry_at(s->count), whole_len = start_of(s, s->count);
    memcpy(out, (const uint8_t[]){REF_TWO_BYTES(s->count), REF_TWO_BYTES(whole_len - stream)}, REF_STORE_HEADER);
    for (size_t i = 0; i < s->count; i++) {
        kept a = s->answers[i];
        size_t at = start_of(s, i), offset = at - stream;
        const uint8_t entry[] = {REF_FOUR_BYTES(a.day), REF_TWO_BYTES(offset), REF_TWO_BYTES(a.len)};
        memcpy(out + entry_at(i), entry, sizeof entry);
        write_answer(out + at, a);
    }
    return whole_len;
}

/* Appends the answer by this second. `a` has the day that its entry is to have. */
static void append(contents *s, kept a, uint32_t second, uint8_t number)
{
    static uint8_t wanted[STORE_ROOM], answer[SPARE];
    size_t len = write_store(wanted, s), room = len + SPARE;
    try("append of TREP %02X by second %lu to a store of %zu", a.trep, (unsigned long)second, s->count);
    random_bytes(wanted + len, SPARE);
    write_answer(answer, a);
    uint8_t *store = guard_lend(&lent[STORE], wanted, room);
    const uint8_t *lent_answer = guard_lend(&lent[ANSWER], answer, a.len);
    tacho_written w = calls->store_append(store, room, lent_answer, a.len, second);
    if (number == 0) {
        s->answers[s->count++] = a;
        len = write_store(wanted, s);
    }
    want_result(w.number, w.len, number, number ? 0 : len);
    want_bytes(STORE, "the store", wanted);
    want_bytes(ANSWER, "the answer", answer);
}

/* Lends the store; its bytes stay in `bytes`. */
static size_t lend_store(const contents *s, uint8_t *bytes)
{
    size_t len = write_store(bytes, s);
    guard_lend(&lent[STORE], bytes, len);
    return len;
}

/* Looks up by this second: finds answer `at`, or none where that is not in the store. */
static void look_up(const contents *s, uint8_t trep, uint32_t second, size_t at)
{
    static uint8_t bytes[STORE_ROOM];
    size_t len = lend_store(s, bytes);
    bool held = at < s->count;
    size_t start = held ? start_of(s, at) : 0;
    try("lookup of TREP %02X by second %lu in a store of %zu", trep, (unsigned long)second, s->count);
    tacho_part p = calls->store_lookup(lent[STORE].at, len, trep, second);
    want_result(p.number, p.len, held ? 0 : 6, held ? s->answers[at].len : 0);
    if (p.start != start) fail("%s, %s: the answer is at %zu, wanted %zu", calls->name, trying, p.start, start);
    want_bytes(STORE, "the store", bytes);
}

/* The store is unbroken, and reading gives back each answer with the day of its entry. */
static void read_back(const contents *s)
{
    static uint8_t bytes[STORE_ROOM];
    size_t len = lend_store(s, bytes);
    for (size_t k = 0; k < s->count; k++) {
        kept a = s->answers[k];
        try("answer %zu of a store of %zu", k, s->count);
        tacho_held h = calls->store_answer(lent[STORE].at, len, k);
        want_result(h.number, h.len, 0, a.len);
        if (h.trep != a.trep || h.day != a.day || h.start != start_of(s, k))
            fail("%s, %s: is TREP %02X at second %lu, wanted TREP %02X at %lu", calls->name, trying, h.trep, (unsigned long)h.day, a.trep,
                 (unsigned long)a.day);
    }
    want_bytes(STORE, "the store", bytes);
}

/* A step of the unit: its state and the data that it hears; then what is wanted, a refusal by a number or the state behind the step and the
 * data that the unit says, none for silence. */
typedef struct {
    uint8_t state[TACHO_UNIT_STATE], heard[10], heard_len;
    uint8_t number, after[TACHO_UNIT_STATE], said[255], said_len;
} unit_case;

static void step(const contents *s, const unit_case *u)
{
    static uint8_t bytes[STORE_ROOM];
    uint8_t frame[TACHO_FRAME_MOST], wanted[TACHO_FRAME_MOST];
    size_t store_len = lend_store(s, bytes), wanted_len = 0;
    size_t frame_len = ref_frame_write(u->heard, u->heard_len, false, frame, sizeof frame).len;
    guard_lend(&lent[STATE], u->state, sizeof u->state);
    guard_lend(&lent[FRAME], frame, frame_len);
    memcpy(wanted, guard_lend(&lent[OUT], NULL, sizeof wanted), sizeof wanted);
    tacho_written w = calls->unit_step(lent[STATE].at, sizeof u->state, lent[STORE].at, store_len, lent[FRAME].at, frame_len, lent[OUT].at,
                                       sizeof wanted);
    if (u->said_len) wanted_len = ref_frame_write(u->said, u->said_len, true, wanted, sizeof wanted).len;
    want_result(w.number, w.len, u->number, wanted_len);
    want_bytes(OUT, "the reply", wanted);
    want_bytes(STATE, "the unit's state", u->number ? u->state : u->after);
    want_bytes(STORE, "the store", bytes);
    want_bytes(FRAME, "the frame", frame);
}

/* The packed state of a unit at rate 1; outside sending no TREP, second and last number. */
static void write_unit(uint8_t *state, uint8_t kind, uint8_t phase, uint8_t trep, uint32_t second, uint8_t last)
{
    bool sending = phase == TACHO_PHASE_SENDING;
    memset(state, 0, TACHO_UNIT_STATE);
    state[TACHO_UNIT_AT_KIND] = kind;
    state[TACHO_UNIT_AT_RATE] = 1;
    state[TACHO_UNIT_AT_PHASE] = phase;
    state[TACHO_UNIT_AT_TREP] = sending ? trep : 0;
    put_four(state + TACHO_UNIT_AT_DAY, sending ? second : 0);
    state[TACHO_UNIT_AT_LAST + 1] = sending ? last : 0;
}

/* The unit is to refuse by a wire code and stay as it is. */
static void refuses(unit_case *u, uint8_t code)
{
    memcpy(u->after, u->state, sizeof u->after);
    memcpy(u->said, (const uint8_t[]){0x7F, u->heard[0], code}, 3);
    u->said_len = 3;
}

/* The unit is to say sub message k of the answer, which has one or two. */
static void says_message(unit_case *u, kept a, uint8_t k)
{
    uint8_t answer[SPLIT];
    write_answer(answer, a);
    if (a.len < SPLIT) {
        memcpy(u->said, answer, a.len);
        u->said_len = (uint8_t)a.len;
        return;
    }
    size_t from = 2 + (k - 1) * FULL, len = k == 1 ? FULL : a.len - from;
    memcpy(u->said, (const uint8_t[]){0x76, a.trep, 0, k}, 4);
    memcpy(u->said + 4, answer + from, len);
    u->said_len = (uint8_t)(4 + len);
}

/* What the unit hears: a request for activities by a second, or an acknowledgement. */
static void hears_request(unit_case *u, uint8_t trep, uint32_t second)
{
    memcpy(u->heard, (const uint8_t[]){0x36, trep, REF_FOUR_BYTES(second)}, 6);
    u->heard_len = 6;
}

static void hears_code(unit_case *u, uint16_t code)
{
    memcpy(u->heard, (const uint8_t[]){0x83, 0x76, REF_TWO_BYTES(code)}, 4);
    u->heard_len = 4;
}

/* A request by a second of the day gets the answer, and the state keeps the second as it came; another day is not held. Without an upload
 * granted neither is looked for. */
static void request(uint8_t kind, const contents *s, instant b)
{
    kept a = s->answers[0];
    uint8_t behind = a.len < SPLIT ? TACHO_PHASE_GRANTED : TACHO_PHASE_SENDING;
    for (uint8_t phase = TACHO_PHASE_CLOSED; phase <= TACHO_PHASE_SENDING; phase++) {
        unit_case u = {.number = 0};
        if (phase == TACHO_PHASE_SENDING && a.len < SPLIT) continue; /* such a unit sends nothing */
        try("request of TREP %02X by second %lu in phase %u, held is %lu", a.trep, (unsigned long)b.second, phase,
            (unsigned long)a.day);
        write_unit(u.state, kind, phase, a.trep, a.day, 2);
        write_unit(u.after, kind, phase, a.trep, a.day, 2); /* which a closed unit keeps, silent */
        hears_request(&u, a.trep, b.second);
        if (phase == TACHO_PHASE_STARTED || phase == TACHO_PHASE_SESSION) refuses(&u, 0x22);
        else if (phase != TACHO_PHASE_CLOSED && a.day != b.first) refuses(&u, 0xFA);
        else if (phase != TACHO_PHASE_CLOSED) {
            says_message(&u, a, 1);
            write_unit(u.after, kind, behind, a.trep, b.second, 1);
        }
        step(s, &u);
    }
}

/* A unit whose state has a second of the day goes on: the message again, the next, 12 behind the last, the stop. With another day's second
 * its state is impossible. */
static void acknowledge(uint8_t kind, const contents *s, instant b)
{
    static const uint16_t codes[] = {1, 2, 3, 0xFFFF};
    kept a = s->answers[0];
    for (size_t i = 0; i < sizeof codes / sizeof *codes; i++) {
        unit_case u = {.number = a.day == b.first ? 0 : 11};
        bool stop = codes[i] == 0xFFFF;
        uint8_t last = codes[i] == 3 ? 2 : 1;
        try("code %04X to a unit that sends second %lu, held is %lu", codes[i], (unsigned long)b.second, (unsigned long)a.day);
        write_unit(u.state, kind, TACHO_PHASE_SENDING, a.trep, b.second, last);
        hears_code(&u, codes[i]);
        write_unit(u.after, kind, stop ? TACHO_PHASE_GRANTED : TACHO_PHASE_SENDING, a.trep, b.second, (uint8_t)codes[i]);
        if (codes[i] < 3) says_message(&u, a, (uint8_t)codes[i]);
        if (codes[i] == 3) refuses(&u, 0x12);
        if (u.number) u.said_len = 0;
        step(s, &u);
    }
}

/* A fresh tool begins by this second. `state` gets the state in which it waits then; refused, the one in which no tool is to wait. */
static void begin(uint8_t *state, uint8_t request, uint8_t trep, uint32_t second, uint8_t number)
{
    uint8_t wanted[TACHO_FRAME_MOST], data[6] = {0x36, trep, REF_FOUR_BYTES(second)};
    const uint8_t after[] = {request, TACHO_OUTCOME_WAITING, 0, trep, REF_FOUR_BYTES(second), 1, 0, 1, 0, 0, 0, 0};
    size_t len = 0;
    bool dated = memchr(DATED, trep, sizeof DATED);
    memset(state, 0, TACHO_TOOL_STATE);
    try("begin of request %u, TREP %02X by second %lu", request, trep, (unsigned long)second);
    guard_lend(&lent[STATE], state, TACHO_TOOL_STATE);
    memcpy(wanted, guard_lend(&lent[OUT], NULL, sizeof wanted), sizeof wanted);
    tacho_written w = calls->tool_begin(lent[STATE].at, TACHO_TOOL_STATE, request, trep, second, lent[OUT].at, sizeof wanted);
    if (number == 0) len = ref_frame_write(data, dated ? 6 : 2, false, wanted, sizeof wanted).len;
    want_result(w.number, w.len, number, len);
    want_bytes(OUT, "the frame to send", wanted);
    want_bytes(STATE, "the tool's state", number ? state : after);
    memcpy(state, after, sizeof after);
}

/* A wait ends at the tool with this state: it sends the request again with the second as it was given, or is impossible. */
static void wait_ends(const uint8_t *state, bool possible)
{
    uint8_t wanted[TACHO_FRAME_MOST], after[TACHO_TOOL_STATE], room[SHORT], data[6] = {0x36};
    bool dated = memchr(DATED, state[TACHO_TOOL_AT_TREP], sizeof DATED);
    size_t len = 0;
    memcpy(data + 1, state + TACHO_TOOL_AT_TREP, 5); /* the day stands behind the TREP in both */
    memcpy(after, state, sizeof after);
    after[TACHO_TOOL_AT_SENDINGS] += possible;
    guard_lend(&lent[STATE], state, sizeof after);
    memcpy(wanted, guard_lend(&lent[OUT], NULL, sizeof wanted), sizeof wanted);
    memcpy(room, guard_lend(&lent[ROOM], NULL, sizeof room), sizeof room);
    tacho_written w = calls->tool_wait_ended(lent[STATE].at, sizeof after, lent[ROOM].at, sizeof room, lent[OUT].at, sizeof wanted);
    if (possible) len = ref_frame_write(data, dated ? 6 : 2, false, wanted, sizeof wanted).len;
    want_result(w.number, w.len, possible ? 0 : 11, len);
    want_bytes(OUT, "the frame to send", wanted);
    want_bytes(STATE, "the tool's state", after);
    want_bytes(ROOM, "the room", room);
}

/* The answer arrives at the tool with this state, which keeps its second: done, or impossible. */
static void arrives(const uint8_t *state, kept a, bool possible)
{
    uint8_t frame[TACHO_FRAME_MOST], out[TACHO_FRAME_MOST], after[TACHO_TOOL_STATE], answer[SHORT], room[SHORT];
    write_answer(answer, a);
    memcpy(after, state, sizeof after);
    if (possible) after[TACHO_TOOL_AT_OUTCOME] = TACHO_OUTCOME_DONE, after[TACHO_TOOL_AT_HELD + 3] = SHORT;
    size_t frame_len = ref_frame_write(answer, SHORT, true, frame, sizeof frame).len;
    guard_lend(&lent[STATE], state, sizeof after);
    guard_lend(&lent[FRAME], frame, frame_len);
    memcpy(room, guard_lend(&lent[ROOM], NULL, SHORT), SHORT);
    memcpy(out, guard_lend(&lent[OUT], NULL, sizeof out), sizeof out);
    tacho_written w = calls->tool_arrived(lent[STATE].at, sizeof after, lent[FRAME].at, frame_len, lent[ROOM].at, SHORT, lent[OUT].at,
                                          sizeof out);
    want_result(w.number, w.len, possible ? 0 : 11, 0);
    want_bytes(ROOM, "the room", possible ? answer : room);
    want_bytes(STATE, "the tool's state", after);
    want_bytes(OUT, "the output", out);
    want_bytes(FRAME, "the frame", frame);
}

/* A transfer of the TREP by this second: begun, sent again, done; where 12 does not allow it, no tool waits in one. */
static void transfer(uint8_t trep, uint32_t second, bool allowed)
{
    uint8_t state[TACHO_TOOL_STATE];
    begin(state, TACHO_REQUEST_TRANSFER, trep, second, allowed ? 0 : 12);
    try("a tool that waits for TREP %02X by second %lu", trep, (unsigned long)second);
    wait_ends(state, allowed);
    arrives(state, (kept){trep, second, SHORT}, allowed);
}

/* One answer of activities in a store, appended by second a; then every second b. */
static void activities(uint8_t kind, instant a)
{
    uint8_t trep = DATED[kind], other = DATED[(kind + 1) % 3];
    contents one = {.count = 0}, split = {.count = 0};
    append(&one, (kept){trep, a.first, SHORT}, a.second, 0);
    append(&split, (kept){trep, a.first, SPLIT}, a.second, 0);
    read_back(&one);
    for (size_t k = 0; k < INSTANTS; k++) {
        instant b = instants[k];
        contents two = one, others = one;
        bool same = a.first == b.first;
        look_up(&one, trep, b.second, same ? 0 : one.count);
        look_up(&one, other, b.second, one.count);
        append(&two, (kept){trep, b.first, SHORT + 1}, b.second, same ? 7 : 0);
        if (!same) look_up(&two, trep, b.second, 1);
        look_up(&two, trep, a.second, 0);
        append(&others, (kept){other, b.first, SHORT}, b.second, 0); /* days of another TREP are other answers */
        look_up(&others, other, b.first, 1);
        request(kind, &one, b);
        request(kind, &split, b);
        acknowledge(kind, &split, b);
    }
    transfer(trep, a.second, true);
}

/* The place of the answer in the store, or its count. */
static size_t place_of(const contents *s, uint8_t trep, uint32_t day)
{
    size_t i = 0;
    while (i < s->count && (s->answers[i].trep != trep || s->answers[i].day != day)) i++;
    return i;
}

/* The first second of a day of which the store has no answer with this TREP. */
static uint32_t free_day(const contents *s, uint8_t trep)
{
    uint32_t day = 86400 * 200;
    while (place_of(s, trep, day) < s->count) day += 86400;
    return day;
}

/* Each day of each TREP in one store, filled up to 64 answers: every second finds its own. 7 comes before 8. */
static void many_days(void)
{
    contents s = {.count = 0};
    for (size_t k = 0; k < INSTANTS; k++)
        for (size_t t = 0; t < sizeof DATED; t++) {
            instant a = instants[k];
            bool held = place_of(&s, DATED[t], a.first) < s.count;
            append(&s, (kept){DATED[t], a.first, SHORT + k % 2}, a.second, held ? 7 : 0);
        }
    while (s.count < 64) append(&s, (kept){DATED[0], free_day(&s, DATED[0]), 2}, free_day(&s, DATED[0]) + 86399, 0);
    read_back(&s);
    for (size_t k = 0; k < INSTANTS; k++)
        for (size_t t = 0; t < sizeof DATED; t++) {
            look_up(&s, DATED[t], instants[k].second, place_of(&s, DATED[t], instants[k].first));
            append(&s, (kept){DATED[t], instants[k].first, SHORT}, instants[k].second, 7);
        }
    append(&s, (kept){DATED[1], free_day(&s, DATED[1]), SHORT}, free_day(&s, DATED[1]) + 1, 8);
}

/* An entry has the first second of a day, outside activities 0: a store with another one is broken for every call. Its first answer is good
 * in any case. */
static void entry(uint8_t kind, uint8_t trep, uint32_t day, bool good)
{
    static uint8_t bytes[STORE_ROOM];
    contents s = {.count = 2, .answers = {{trep == 0x00 ? 0x01 : 0x00, 0, 2}, {trep, day, SHORT}}};
    size_t len = lend_store(&s, bytes);
    try("an entry of TREP %02X at second %lu", trep, (unsigned long)day);
    tacho_fault f = calls->store_fault(lent[STORE].at, len);
    want_result(f.number, f.position, good ? 0 : 16, good ? 0 : 1);
    if (good) return;
    tacho_part p = calls->store_lookup(lent[STORE].at, len, trep, day);
    want_result(p.number, p.len, 16, 0);
    want_bytes(STORE, "the store", bytes);
    append(&s, (kept){DATED[kind], 0, SHORT}, 0, 16);
    unit_case u = {.number = 16};
    try("a request to a unit whose store has an entry of TREP %02X at second %lu", trep, (unsigned long)day);
    write_unit(u.state, kind, TACHO_PHASE_GRANTED, 0, 0, 0);
    hears_request(&u, DATED[kind], day);
    step(&s, &u);
}

/* Outside activities 0 is the only day, below 86,400 too; and what is not listed has no name at any second. */
static void without_days(uint8_t trep)
{
    static const uint32_t days[] = {0, 1, 5, 86399, 86400, 86401, 172800, 0xFFFFA500, 0xFFFFFFFF};
    contents s = {.count = 0}, split = {.count = 1, .answers = {{trep, 0, SPLIT}}};
    bool listed = memchr(TREPS, trep, sizeof TREPS);
    append(&s, (kept){trep, 0, SHORT}, 0, listed ? 0 : 12);
    for (size_t k = 0; k < sizeof days / sizeof *days; k++) {
        contents more = s;
        if (days[k]) append(&more, (kept){trep, 0, SHORT}, days[k], 12);
        look_up(&s, trep, days[k], days[k] ? s.count : 0);
        transfer(trep, days[k], listed && days[k] == 0);
        entry(0, trep, days[k], listed && days[k] == 0);
        if (!listed || days[k] == 0) continue;
        unit_case u = {.number = 11}; /* the second in a unit's state counts as it is, too */
        try("code 2 to a unit that sends TREP %02X by second %lu", trep, (unsigned long)days[k]);
        write_unit(u.state, 0, TACHO_PHASE_SENDING, trep, days[k], 1);
        hears_code(&u, 2);
        step(&split, &u);
    }
}

/* A fixed request has no TREP and no day. */
static void fixed_requests(void)
{
    uint8_t state[TACHO_TOOL_STATE];
    for (uint8_t r = TACHO_REQUEST_START; r < TACHO_REQUEST_TRANSFER; r++)
        for (size_t k = 1; k < INSTANTS; k++) begin(state, r, 0, instants[k].second, 12);
}

/* What a request asks for and its length are checked before the phase, whatever its second; and 31 is said for values that are no day. */
static void other_checks(void)
{
    static const struct {
        uint8_t phase, heard[10], heard_len, code;
    } known[] = {
        {TACHO_PHASE_GRANTED, {0x36, 0x22, 0, 1, 0x51, 0x81}, 6, 0x12},
        {TACHO_PHASE_STARTED, {0x36, 0x22, 0, 1, 0x51, 0x81}, 6, 0x12},
        {TACHO_PHASE_GRANTED, {0x36, 0x02, 0, 1, 0x51}, 5, 0x13},
        {TACHO_PHASE_STARTED, {0x36, 0x02, 0, 1, 0x51, 0x81, 0}, 7, 0x13},
        {TACHO_PHASE_GRANTED, {0x36, 0x02}, 2, 0x13},
        {TACHO_PHASE_GRANTED, {0x36, 0x01, 0, 0, 0, 0}, 6, 0x13},
        {TACHO_PHASE_SESSION, {0x87, 1, 1, 6}, 4, 0x31},
        {TACHO_PHASE_SESSION, {0x87, 2, 2}, 3, 0x31},
        {TACHO_PHASE_SESSION, {0x35, 0, 0, 0, 0, 1, 0xFF, 0xFF, 0xFF, 0xFF}, 10, 0x31},
        {TACHO_PHASE_GRANTED, {0x83, 0x75, 0, 1}, 4, 0x31},
    };
    contents s = {.count = 1, .answers = {{0x02, 86400, SHORT}}};
    for (size_t k = 0; k < sizeof known / sizeof *known; k++) {
        unit_case u = {.heard_len = known[k].heard_len};
        try("request %zu of the other checks", k);
        memcpy(u.heard, known[k].heard, sizeof u.heard);
        write_unit(u.state, 0, known[k].phase, 0, 0, 0);
        refuses(&u, known[k].code);
        step(&s, &u);
    }
}

/* The sheet's examples in bytes. `sheet_store` is what its first append leaves of 20 bytes of zero. */
static const uint8_t sheet_store[20] = {0, 1, 0, 3, 0, 1, 0x51, 0x80, 0, 0, 0, 3, 0x76, 0x02, 0xAA};
static const uint8_t sheet_request[] = {0x80, 0xEE, 0xF0, 0x06, 0x36, 0x02, 0x00, 0x01, 0x51, 0x81, 0x6F};

static void sheet_appends(void)
{
    static const uint8_t zero[20], answer[] = {0x76, 0x02, 0xAA};
    uint8_t *store = guard_lend(&lent[STORE], zero, sizeof zero);
    const uint8_t *a = guard_lend(&lent[ANSWER], answer, sizeof answer);
    try("the sheet's append by 86,401");
    tacho_written w = calls->store_append(store, sizeof zero, a, sizeof answer, 86401);
    want_result(w.number, w.len, 0, 15);
    want_bytes(STORE, "the store", sheet_store);
    try("the sheet's append of 76 02 by 86,400");
    w = calls->store_append(store, sizeof zero, guard_lend(&lent[ANSWER], answer, 2), 2, 86400);
    want_result(w.number, w.len, 7, 0);
    want_bytes(STORE, "the store", sheet_store);
}

static void sheet_lookups(void)
{
    static const struct {
        uint8_t trep;
        uint32_t second;
        tacho_part part;
    } known[] = {{0x02, 172799, {0, 12, 3}}, {0x02, 86399, {6, 0, 0}}, {0x02, 86400, {0, 12, 3}},
                 {0x02, 172800, {6, 0, 0}},  {0x31, 5, {6, 0, 0}},     {0x22, 86400, {6, 0, 0}}};
    const uint8_t *store = guard_lend(&lent[STORE], sheet_store, sizeof sheet_store);
    for (size_t k = 0; k < sizeof known / sizeof *known; k++) {
        try("lookup of TREP %02X by %lu in the sheet's store", known[k].trep, (unsigned long)known[k].second);
        tacho_part p = calls->store_lookup(store, sizeof sheet_store, known[k].trep, known[k].second);
        want_result(p.number, p.len, known[k].part.number, known[k].part.len);
        if (p.start != known[k].part.start) fail("%s, %s: the answer is at %zu", calls->name, trying, p.start);
    }
    want_bytes(STORE, "the store", sheet_store);
}

/* The unit of kind 0 in this state hears the frame with that store. */
static void sheet_step(const char *what, const uint8_t *state, size_t store_len, const uint8_t *frame, size_t frame_len,
                       const uint8_t *after, const uint8_t *reply, size_t reply_len)
{
    uint8_t wanted[TACHO_FRAME_MOST];
    try("the sheet's unit %s", what);
    guard_lend(&lent[STATE], state, TACHO_UNIT_STATE);
    guard_lend(&lent[FRAME], frame, frame_len);
    memcpy(wanted, guard_lend(&lent[OUT], NULL, sizeof wanted), sizeof wanted);
    memcpy(wanted, reply, reply_len);
    tacho_written w = calls->unit_step(lent[STATE].at, TACHO_UNIT_STATE, lent[STORE].at, store_len, lent[FRAME].at, frame_len,
                                       lent[OUT].at, sizeof wanted);
    want_result(w.number, w.len, 0, reply_len);
    want_bytes(OUT, "the reply", wanted);
    want_bytes(STATE, "the unit's state", after);
}

static void sheet_requests(void)
{
    static const uint8_t granted[] = {0, 1, 0, 3, 0, 0, 0, 0, 0, 0, 0}, session[] = {0, 1, 0, 2, 0, 0, 0, 0, 0, 0, 0};
    static const uint8_t answered[] = {0x80, 0xF0, 0xEE, 0x03, 0x76, 0x02, 0xAA, 0x83};
    static const uint8_t refused[] = {0x80, 0xF0, 0xEE, 0x03, 0x7F, 0x36, 0x22, 0x38};
    guard_lend(&lent[STORE], sheet_store, sizeof sheet_store);
    sheet_step("granted", granted, sizeof sheet_store, sheet_request, sizeof sheet_request, granted, answered, sizeof answered);
    sheet_step("in session", session, sizeof sheet_store, sheet_request, sizeof sheet_request, session, refused, sizeof refused);
}

/* The answer with 253 data bytes, all 5A: its first sub message; and the second one, with a state that has the day's last second. */
static void sheet_sub_messages(void)
{
    static const uint8_t granted[] = {0, 1, 0, 3, 0, 0, 0, 0, 0, 0, 0}, after[] = {0, 1, 0, 4, 2, 0, 1, 0x51, 0x81, 0, 1};
    static const uint8_t last_second[] = {0, 1, 0, 4, 2, 0, 2, 0xA2, 0xFF, 0, 1}, sent[] = {0, 1, 0, 4, 2, 0, 2, 0xA2, 0xFF, 0, 2};
    static const uint8_t code_2[] = {0x80, 0xEE, 0xF0, 0x04, 0x83, 0x76, 0x00, 0x02, 0x5D};
    static const uint8_t second[] = {0x80, 0xF0, 0xEE, 0x06, 0x76, 0x02, 0x00, 0x02, 0x5A, 0x5A, 0x92};
    static uint8_t store[12 + SPLIT] = {0, 1, 0, SPLIT, 0, 1, 0x51, 0x80, 0, 0, 0, SPLIT, 0x76, 0x02};
    uint8_t first[TACHO_FRAME_MOST] = {0x80, 0xF0, 0xEE, 0xFF, 0x76, 0x02, 0x00, 0x01};
    memset(store + 14, 0x5A, 253);
    memset(first + 8, 0x5A, 251);
    first[259] = 0x14; /* 80 + F0 + EE + FF + 76 + 02 + 01 is 3D6, 251 times 5A is 583E: 5C14 */
    guard_lend(&lent[STORE], store, sizeof store);
    sheet_step("with 253 data bytes", granted, sizeof store, sheet_request, sizeof sheet_request, after, first, sizeof first);
    sheet_step("that sends 172,799", last_second, sizeof store, code_2, sizeof code_2, sent, second, sizeof second);
}

static void sheet_begin(void)
{
    static const uint8_t fresh[TACHO_TOOL_STATE], after[] = {5, 1, 0, 2, 0, 1, 0x51, 0x81, 1, 0, 1, 0, 0, 0, 0};
    uint8_t wanted[TACHO_FRAME_MOST];
    try("the sheet's begin by 86,401");
    guard_lend(&lent[STATE], fresh, sizeof fresh);
    memcpy(wanted, guard_lend(&lent[OUT], NULL, sizeof wanted), sizeof wanted);
    memcpy(wanted, sheet_request, sizeof sheet_request);
    tacho_written w = calls->tool_begin(lent[STATE].at, sizeof fresh, TACHO_REQUEST_TRANSFER, 0x02, 86401, lent[OUT].at, sizeof wanted);
    want_result(w.number, w.len, 0, sizeof sheet_request);
    want_bytes(OUT, "the frame to send", wanted);
    want_bytes(STATE, "the tool's state", after);
}

static void sheet_entry(void)
{
    uint8_t store[sizeof sheet_store];
    memcpy(store, sheet_store, sizeof store);
    store[7] = 0x81;
    try("the sheet's entry at 86,401");
    tacho_fault f = calls->store_fault(guard_lend(&lent[STORE], store, sizeof store), sizeof store);
    want_result(f.number, f.position, 16, 0);
}

static void judge(const side *s)
{
    calls = s;
    sheet_appends();
    sheet_lookups();
    sheet_requests();
    sheet_sub_messages();
    sheet_begin();
    sheet_entry();
    for (uint8_t kind = 0; kind < sizeof DATED; kind++)
        for (size_t k = 0; k < INSTANTS; k++) {
            activities(kind, instants[k]);
            entry(kind, DATED[kind], instants[k].second, instants[k].second == instants[k].first);
        }
    many_days();
    for (unsigned trep = 0; trep < 256; trep++)
        if (!memchr(DATED, (int)trep, sizeof DATED)) without_days((uint8_t)trep);
    fixed_requests();
    other_checks();
}

int main(int argc, char **argv)
{
    uint64_t seed = argc > 1 ? strtoull(argv[1], NULL, 10) : (uint64_t)time(NULL);
    random_seed(seed);
    printf("days: seed %llu\n", (unsigned long long)seed);
    fflush(stdout); /* it stays readable where a sanitizer or a guard page ends the test */
    for (int i = 0; i < LENT; i++) guard_make(&lent[i], STORE_ROOM);
    make_instants();
    for (size_t k = 0; k < sizeof SIDES / sizeof *SIDES; k++) judge(&SIDES[k]);
    printf("days: %lu calls gave what was wanted, in the sheet's examples and by %d seconds\n", judged, INSTANTS);
    return 0;
}

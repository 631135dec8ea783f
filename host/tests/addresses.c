/*
 * Addresses as given (document 02, Req 05): the examples of the request's sheet, written down byte for byte, and a short frame and the
 * start at every two addresses. The proved calls and the reference are judged alike. A refused call changes nothing, and no call what it
 * only reads or a byte outside its buffers.
 *
 *   addresses
 */
#include "readdressed.h"
#include "support.h"

#include <stdio.h>
#include <string.h>

/* The calls at given addresses, of one side. */
typedef struct {
    const char *name;
    __typeof__(tacho_frame_check_at) *frame_check;
    __typeof__(tacho_frame_data_at) *frame_data;
    __typeof__(tacho_frame_write_at) *frame_write;
    __typeof__(tacho_sub_message_at) *sub_message;
    __typeof__(tacho_unit_step_at) *unit_step;
    __typeof__(tacho_tool_begin_at) *tool_begin;
    __typeof__(tacho_tool_arrived_at) *tool_arrived;
    __typeof__(tacho_tool_wait_ended_at) *tool_wait_ended;
} side;

#define SIDE(words, P)                                                              \
    {                                                                               \
        .name = words, .frame_check = P##_frame_check_at,                           \
        .frame_data = P##_frame_data_at, .frame_write = P##_frame_write_at,         \
        .sub_message = P##_sub_message_at, .unit_step = P##_unit_step_at,           \
        .tool_begin = P##_tool_begin_at, .tool_arrived = P##_tool_arrived_at,       \
        .tool_wait_ended = P##_tool_wait_ended_at,                                  \
    }
static const side SIDES[] = {SIDE("the proved calls", tacho), SIDE("the reference", ref)};
static const side *calls;

/* Lent buffers, each with what it has to have after the call; and how many calls were judged. */
enum { STATE, STORE, FRAME, ROOM, OUT, LENT };
enum { OVER_BOUND = 59999, ROOM_LEN = 300 }; /* more data bytes than can be split; a room for one sub message */
static guard lent[LENT];
static uint8_t wanted[LENT][OVER_BOUND];
static unsigned long judged;

static uint8_t *lend(int i, const uint8_t *bytes, size_t len)
{
    uint8_t *at = guard_lend(&lent[i], bytes, len);
    if (len) memcpy(wanted[i], at, len);
    return at;
}

static void lend_nothing(void)
{
    for (int i = 0; i < LENT; i++) lend(i, NULL, 0);
}

/* A call gave this number and this length, and every lent buffer has what it has to have. */
static void want(const char *what, unsigned number, size_t len, unsigned wanted_number, size_t wanted_len)
{
    static const char *const buffers[LENT] = {"state", "store", "frame or data", "room", "output"};
    judged++;
    if (number != wanted_number || len != wanted_len)
        fail("%s, %s: gave number %u and %zu, wanted %u and %zu", calls->name, what, number, len, wanted_number, wanted_len);
    for (int i = 0; i < LENT; i++) {
        guard_check(&lent[i], what);
        if (memcmp(lent[i].at, wanted[i], lent[i].len) == 0) continue;
        hex("is", lent[i].at, lent[i].len);
        hex("wanted", wanted[i], lent[i].len);
        fail("%s, %s: the %s is not as wanted", calls->name, what, buffers[i]);
    }
}

/* The calls on the lent buffers. */

static tacho_written step(addresses a)
{
    return calls->unit_step(a.unit, a.tool, lent[STATE].at, lent[STATE].len, lent[STORE].at, lent[STORE].len, lent[FRAME].at,
                            lent[FRAME].len, lent[OUT].at, lent[OUT].len);
}

static tacho_written begin(addresses a, uint8_t request, uint8_t trep)
{
    return calls->tool_begin(a.unit, a.tool, lent[STATE].at, lent[STATE].len, request, trep, 0, lent[OUT].at, lent[OUT].len);
}

static tacho_written arrived(addresses a)
{
    return calls->tool_arrived(a.unit, a.tool, lent[STATE].at, lent[STATE].len, lent[FRAME].at, lent[FRAME].len, lent[ROOM].at,
                               lent[ROOM].len, lent[OUT].at, lent[OUT].len);
}

static tacho_written wait_ended(addresses a)
{
    return calls->tool_wait_ended(a.unit, a.tool, lent[STATE].at, lent[STATE].len, lent[ROOM].at, lent[ROOM].len, lent[OUT].at,
                                  lent[OUT].len);
}

static tacho_written write_frame(addresses a, bool to_tool)
{
    return calls->frame_write(a.unit, a.tool, lent[FRAME].at, lent[FRAME].len, to_tool, lent[OUT].at, lent[OUT].len);
}

static const addresses REMOTE = {0xEE, 0xFB};
static const uint8_t EMPTY_STORE[4], CLOSED[TACHO_UNIT_STATE] = {2, 1}, STARTED[TACHO_UNIT_STATE] = {2, 1, 0, TACHO_PHASE_STARTED};

/* The state of a tool that has begun a request, or has sent it so many times, and waits. */
#define WAITING(request, trep, sendings, expected, held) \
    {request, TACHO_OUTCOME_WAITING, 0, trep, 0, 0, 0, 0, sendings, REF_TWO_BYTES(expected), REF_FOUR_BYTES(held)}

/* The tool's start at these two addresses, and the reply of a closed unit that hears it. The third two are the lab's. */
static void sheet_starts(void)
{
    static const struct {
        addresses at;
        uint8_t start[5], reply[8];
    } known[] = {
        {{0xEE, 0xFB}, {0x81, 0xEE, 0xFB, 0x81, 0xEB}, {0x80, 0xFB, 0xEE, 0x03, 0xC1, 0xEA, 0x8F, 0xA6}},
        {{0x00, 0x01}, {0x81, 0x00, 0x01, 0x81, 0x03}, {0x80, 0x01, 0x00, 0x03, 0xC1, 0xEA, 0x8F, 0xBE}},
        {{TACHO_UNIT_ADDRESS, TACHO_TOOL_ADDRESS}, {0x81, 0xEE, 0xF0, 0x81, 0xE0}, {0x80, 0xF0, 0xEE, 0x03, 0xC1, 0xEA, 0x8F, 0x9B}},
        {{0xFF, 0x00}, {0x81, 0xFF, 0x00, 0x81, 0x01}, {0x80, 0x00, 0xFF, 0x03, 0xC1, 0xEA, 0x8F, 0xBC}},
    };
    static const uint8_t fresh[TACHO_TOOL_STATE], begun[TACHO_TOOL_STATE] = WAITING(TACHO_REQUEST_START, 0, 1, 1, 0);
    for (size_t k = 0; k < sizeof known / sizeof *known; k++) {
        lend_nothing();
        lend(STATE, fresh, sizeof fresh);
        lend(OUT, NULL, TACHO_FRAME_MOST);
        memcpy(wanted[STATE], begun, sizeof begun);
        memcpy(wanted[OUT], known[k].start, sizeof known[k].start);
        tacho_written w = begin(known[k].at, TACHO_REQUEST_START, 0);
        want("a start begun", w.number, w.len, 0, sizeof known[k].start);
        lend(STATE, CLOSED, sizeof CLOSED);
        lend(STORE, EMPTY_STORE, sizeof EMPTY_STORE);
        lend(FRAME, known[k].start, sizeof known[k].start);
        lend(OUT, NULL, TACHO_FRAME_MOST);
        memcpy(wanted[STATE], STARTED, sizeof STARTED);
        memcpy(wanted[OUT], known[k].reply, sizeof known[k].reply);
        w = step(known[k].at);
        want("a start heard", w.number, w.len, 0, sizeof known[k].reply);
    }
}

/* Starts that a closed unit given EE and FB refuses: the lab's, the lab's checksum, the two swapped, each of the two twice. */
static void sheet_refused_starts(void)
{
    static const struct {
        uint8_t start[5], number;
    } known[] = {
        {{0x81, 0xEE, 0xF0, 0x81, 0xE0}, 2}, {{0x81, 0xEE, 0xFB, 0x81, 0xE0}, 3}, {{0x81, 0xFB, 0xEE, 0x81, 0xEB}, 2},
        {{0x81, 0xEE, 0xEE, 0x81, 0xDE}, 2}, {{0x81, 0xFB, 0xFB, 0x81, 0xF8}, 2},
    };
    for (size_t k = 0; k < sizeof known / sizeof *known; k++) {
        lend_nothing();
        lend(STATE, CLOSED, sizeof CLOSED);
        lend(STORE, EMPTY_STORE, sizeof EMPTY_STORE);
        lend(FRAME, known[k].start, sizeof known[k].start);
        lend(OUT, NULL, TACHO_FRAME_MOST);
        tacho_written w = step(REMOTE);
        want("another start heard", w.number, w.len, known[k].number, 0);
    }
}

/* Tools in a transfer of TREP 24: begun, sent again, and behind the first sub message. */
static const uint8_t BEGUN[TACHO_TOOL_STATE] = WAITING(TACHO_REQUEST_TRANSFER, 0x24, 1, 1, 0);
static const uint8_t SENT_AGAIN[TACHO_TOOL_STATE] = WAITING(TACHO_REQUEST_TRANSFER, 0x24, 2, 1, 0);
static const uint8_t FIRST_HELD[TACHO_TOOL_STATE] = WAITING(TACHO_REQUEST_TRANSFER, 0x24, 1, 2, 253);

/* Code 2 from the tool, behind a full sub message with 251 data bytes, all 5A. */
static void sheet_code_2(void)
{
    static const uint8_t code_2[] = {0x80, 0xEE, 0xFB, 0x04, 0x83, 0x76, 0x00, 0x02, 0x68};
    uint8_t first[TACHO_FRAME_MOST] = {0x80, 0xFB, 0xEE, 0xFF, 0x76, 0x24, 0x00, 0x01};
    memset(first + 8, 0x5A, 251);
    first[259] = 0x41; /* 80 + FB + EE + FF + 76 + 24 + 01 is 403, 251 times 5A is 583E: 5C41 */
    lend_nothing();
    lend(STATE, BEGUN, sizeof BEGUN);
    lend(FRAME, first, sizeof first);
    lend(ROOM, NULL, ROOM_LEN);
    lend(OUT, NULL, TACHO_FRAME_MOST);
    memcpy(wanted[STATE], FIRST_HELD, sizeof FIRST_HELD);
    memcpy(wanted[ROOM], first + 4, 2);
    memcpy(wanted[ROOM] + 2, first + 8, 251);
    memcpy(wanted[OUT], code_2, sizeof code_2);
    tacho_written w = arrived(REMOTE);
    want("a sub message at EE and FB", w.number, w.len, 0, sizeof code_2);
}

/* A tool begun at the lab's addresses whose answer arrives at a call given EE and FB: a failed wait, and the request is sent again with the
 * addresses given. At a call given the lab's the same frame is the answer. */
static void sheet_other_call(void)
{
    static const uint8_t fresh[TACHO_TOOL_STATE];
    static const uint8_t done[TACHO_TOOL_STATE] = {TACHO_REQUEST_TRANSFER, TACHO_OUTCOME_DONE, 0, 0x24, 0, 0, 0, 0, 2, 0, 1, 0, 0, 0, 4};
    static const uint8_t asked[] = {0x80, 0xEE, 0xF0, 0x02, 0x36, 0x24, 0xBA}, again[] = {0x80, 0xEE, 0xFB, 0x02, 0x36, 0x24, 0xC5};
    static const uint8_t answer[] = {0x80, 0xF0, 0xEE, 0x04, 0x76, 0x24, 0xAA, 0xBB, 0x61};
    lend_nothing();
    lend(STATE, fresh, sizeof fresh);
    lend(OUT, NULL, TACHO_FRAME_MOST);
    memcpy(wanted[STATE], BEGUN, sizeof BEGUN);
    memcpy(wanted[OUT], asked, sizeof asked);
    tacho_written w = begin(LAB, TACHO_REQUEST_TRANSFER, 0x24);
    want("a transfer begun at the lab's addresses", w.number, w.len, 0, sizeof asked);
    lend(FRAME, answer, sizeof answer);
    lend(ROOM, NULL, ROOM_LEN);
    memcpy(wanted[STATE], SENT_AGAIN, sizeof SENT_AGAIN);
    memcpy(wanted[OUT], again, sizeof again);
    w = arrived(REMOTE);
    want("its answer at a call given EE and FB", w.number, w.len, 0, sizeof again);
    memcpy(wanted[STATE], done, sizeof done);
    memcpy(wanted[ROOM], answer + 4, 4);
    w = arrived(LAB);
    want("its answer at a call given the lab's", w.number, w.len, 0, 0);
}

/* Every call of an end at 55 and 55, on what is lent: 2, and nothing changes. */
static void ends_refuse(void)
{
    static const addresses both = {0x55, 0x55};
    static const uint8_t requests[] = {TACHO_REQUEST_START, TACHO_REQUEST_TRANSFER, 6, 9};
    tacho_written w = step(both);
    want("a step at 55 and 55", w.number, w.len, 2, 0);
    for (size_t k = 0; k < sizeof requests; k++)
        for (unsigned trep = 0x05; trep < 0x07; trep++) {
            w = begin(both, requests[k], (uint8_t)trep);
            want("a begin at 55 and 55", w.number, w.len, 2, 0);
        }
    w = arrived(both);
    want("an arrival at 55 and 55", w.number, w.len, 2, 0);
    w = wait_ended(both);
    want("a wait's end at 55 and 55", w.number, w.len, 2, 0);
}

/* Every call of a frame at 55 and 55, on what is lent: 2, and nothing changes. */
static void frames_refuse(bool to_tool)
{
    static const addresses both = {0x55, 0x55};
    uint8_t number = calls->frame_check(both.unit, both.tool, lent[FRAME].at, lent[FRAME].len, to_tool);
    want("a frame judged at 55 and 55", number, 0, 2, 0);
    tacho_part p = calls->frame_data(both.unit, both.tool, lent[FRAME].at, lent[FRAME].len, to_tool);
    want("a frame's data at 55 and 55", p.number, p.start + p.len, 2, 0);
    tacho_written w = write_frame(both, to_tool);
    want("a frame written at 55 and 55", w.number, w.len, 2, 0);
    for (uint16_t k = 0; k < 3; k++) {
        w = calls->sub_message(both.unit, both.tool, lent[FRAME].at, lent[FRAME].len, 0x24, k, lent[OUT].at, lent[OUT].len);
        want("a sub message at 55 and 55", w.number, w.len, 2, 0);
    }
}

typedef struct {
    const uint8_t *bytes;
    size_t len;
} slice;

/* Every call of an end, with the frame and the output that are lent: a store of no bytes and an empty one, states of FF bytes, of no bytes
 * and good ones, a room of no bytes and one that is long enough. */
static void ends_refuse_in_all_states(void)
{
    uint8_t none[TACHO_TOOL_STATE];
    memset(none, 0xFF, sizeof none);
    const slice states[] = {{none, TACHO_UNIT_STATE}, {none, sizeof none}, {none, 0}, {CLOSED, sizeof CLOSED}, {BEGUN, sizeof BEGUN}};
    const slice stores[] = {{EMPTY_STORE, 0}, {EMPTY_STORE, sizeof EMPTY_STORE}};
    for (size_t s = 0; s < sizeof states / sizeof *states; s++)
        for (size_t k = 0; k < sizeof stores / sizeof *stores; k++) {
            lend(STATE, states[s].bytes, states[s].len);
            lend(STORE, stores[k].bytes, stores[k].len);
            lend(ROOM, NULL, k ? ROOM_LEN : 0);
            ends_refuse();
        }
}

/* Two equal addresses, with all else wrong and with all else right: frames of no bytes and good ones but for the addresses, data that is
 * none, short and too long, outputs that are short and long enough. */
static void sheet_equal(void)
{
    static const uint8_t start[] = {0x81, 0x55, 0x55, 0x81, 0xAC}, answer[] = {0x80, 0x55, 0x55, 0x02, 0x76, 0x24, 0xC6};
    static const slice frames[] = {{NULL, 0}, {start, sizeof start}, {answer, sizeof answer}, {NULL, 300}, {NULL, OVER_BOUND}};
    static const size_t outs[] = {0, 3, TACHO_FRAME_MOST};
    for (size_t f = 0; f < sizeof frames / sizeof *frames; f++)
        for (size_t o = 0; o < sizeof outs / sizeof *outs; o++) {
            lend_nothing();
            lend(FRAME, frames[f].bytes, frames[f].len);
            lend(OUT, NULL, outs[o]);
            frames_refuse(false);
            frames_refuse(true);
            ends_refuse_in_all_states();
        }
}

/* The frame, which goes to one end with the addresses a, is judged at both ends, given a and given a swapped. There the ends change
 * places; where both addresses are the same, every call says 2. */
static void judged_everywhere(addresses a, const uint8_t *frame, size_t len, bool to_tool)
{
    bool equal = a.unit == a.tool, is_start = frame[0] == 0x81;
    const uint8_t *f = lend(FRAME, frame, len);
    for (int swapped = 0; swapped < 2; swapped++)
        for (int at_tool = 0; at_tool < 2; at_tool++) {
            uint8_t unit = swapped ? a.tool : a.unit, tool = swapped ? a.unit : a.tool;
            bool good = !equal && (at_tool == to_tool) == !swapped && !(is_start && at_tool);
            uint8_t number = calls->frame_check(unit, tool, f, len, at_tool);
            tacho_part p = calls->frame_data(unit, tool, f, len, at_tool);
            want("a frame's data", p.number, p.start, good ? 0 : 2, !good ? 0 : is_start ? 3 : 4);
            if (number != p.number) fail("%s: a frame is judged %u, its data is refused by %u", calls->name, number, p.number);
            if (p.len != (good ? 1 : 0)) fail("%s: %zu data bytes of a frame with one", calls->name, p.len);
            judged++; /* the check, beside the data */
        }
}

/* Transfer exit to the unit and its reply to the tool are written; they and the start are judged. A checksum too high by one is 3. */
static void at_both(addresses a)
{
    bool equal = a.unit == a.tool;
    uint8_t sum = (uint8_t)(a.unit + a.tool);
    uint8_t frames[2][6] = {{0x80, a.unit, a.tool, 0x01, 0x37, (uint8_t)(0xB8 + sum)},
                            {0x80, a.tool, a.unit, 0x01, 0x77, (uint8_t)(0xF8 + sum)}};
    uint8_t start[5] = {0x81, a.unit, a.tool, 0x81, (uint8_t)(0x02 + sum)};
    lend_nothing();
    for (int to_tool = 0; to_tool < 2; to_tool++) {
        lend(FRAME, frames[to_tool] + 4, 1);
        lend(OUT, NULL, sizeof frames[to_tool]);
        if (!equal) memcpy(wanted[OUT], frames[to_tool], sizeof frames[to_tool]);
        tacho_written w = write_frame(a, to_tool);
        want("a frame written", w.number, w.len, equal ? 2 : 0, equal ? 0 : sizeof frames[to_tool]);
        judged_everywhere(a, frames[to_tool], sizeof frames[to_tool], to_tool);
        frames[to_tool][5]++;
        const uint8_t *f = lend(FRAME, frames[to_tool], sizeof frames[to_tool]);
        want("a wrong checksum", calls->frame_check(a.unit, a.tool, f, sizeof frames[to_tool], to_tool), 0, equal ? 2 : 3, 0);
    }
    judged_everywhere(a, start, sizeof start, false);
    start[4]++;
    const uint8_t *f = lend(FRAME, start, sizeof start);
    want("a start's wrong checksum", calls->frame_check(a.unit, a.tool, f, sizeof start, false), 0, equal ? 2 : 3, 0);
}

int main(void)
{
    random_seed(1);
    for (int i = 0; i < LENT; i++) guard_make(&lent[i], OVER_BOUND);
    for (size_t k = 0; k < sizeof SIDES / sizeof *SIDES; k++) {
        calls = &SIDES[k];
        sheet_starts();
        sheet_refused_starts();
        sheet_code_2();
        sheet_other_call();
        sheet_equal();
        for (unsigned unit = 0; unit < 256; unit++)
            for (unsigned tool = 0; tool < 256; tool++) at_both((addresses){(uint8_t)unit, (uint8_t)tool});
    }
    printf("addresses: %lu calls gave what was wanted, in the sheet's examples and at every two addresses\n", judged);
    return 0;
}

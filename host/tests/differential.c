/*
 * Every call of tacho.h against the plain C reference, on random, valid and damaged inputs in random states: the same
 * results and the same bytes in every buffer, inputs untouched, nothing changed by a refused call, no byte outside the
 * buffers touched. Each call gives each of its numbers, and no other. Activities are asked for by any second of their
 * day, and what that can come to does come. Some checksums are compared with sums by hand.
 * Calls at given addresses have the lab's, others and two equal ones, and frames with these and with others. At the lab's
 * they and the calls without _at give the same; at two equal ones 2 comes before each number of the call.
 *
 *   differential [ROUNDS [SEED]]
 */
#include "inputs.h"
#include "spoilt.h"
#include "support.h"

#include <stdio.h>
#include <stdlib.h>
#include <string.h>
#include <time.h>

/* The calls of tacho.h with the numbers of documents 01 and 02 that each can give, 0 first, then in the order of its checks. */
typedef enum {
    CHECKSUM, FRAME_CHECK, FRAME_LENGTH, FRAME_DATA, FRAME_WRITE, SUB_MESSAGES, SUB_MESSAGE, STORE_FAULT, STORE_CHECK, STORE_LOOKUP,
    STORE_STREAM, STORE_COUNT, STORE_ANSWER, STORE_APPEND, ARRAY_COUNT, ARRAY_AT, RECORD_AT, UNIT_FRESH, UNIT_STEP, UNIT_KIND, UNIT_RATE,
    UNIT_PHASE, TOOL_FRESH, TOOL_BEGIN, TOOL_ARRIVED, TOOL_WAIT_ENDED, TOOL_OUTCOME, TOOL_CODE, TOOL_EXPECTED, TOOL_HELD, FRAME_CHECK_AT,
    FRAME_DATA_AT, FRAME_WRITE_AT, SUB_MESSAGE_AT, UNIT_STEP_AT, TOOL_BEGIN_AT, TOOL_ARRIVED_AT, TOOL_WAIT_ENDED_AT, CALLS
} call;

enum { NUMBERS = 18, END = -1 };

#define BROKEN 13, 14, 15, 16, 17 /* the numbers of a broken store */

static const struct {
    const char *name;
    int numbers[12];
} CALL[CALLS] = {
    [CHECKSUM] = {"tacho_checksum", {0, END}}, /* it gives no number; 0 says that it was called */
    [FRAME_CHECK] = {"tacho_frame_check", {0, 1, 2, 3, END}},
    [FRAME_LENGTH] = {"tacho_frame_length", {0, END}}, /* so does this one */
    [FRAME_DATA] = {"tacho_frame_data", {0, 1, 2, 3, END}},
    [FRAME_WRITE] = {"tacho_frame_write", {0, 1, 4, END}},
    [SUB_MESSAGES] = {"tacho_sub_messages", {0, 8, END}},
    [SUB_MESSAGE] = {"tacho_sub_message", {0, 8, 10, 4, END}},
    [STORE_FAULT] = {"tacho_store_fault", {0, BROKEN, END}},
    [STORE_CHECK] = {"tacho_store_check", {0, BROKEN, END}},
    [STORE_LOOKUP] = {"tacho_store_lookup", {0, BROKEN, 6, END}},
    [STORE_STREAM] = {"tacho_store_stream", {0, BROKEN, END}},
    [STORE_COUNT] = {"tacho_store_count", {0, BROKEN, END}},
    [STORE_ANSWER] = {"tacho_store_answer", {0, BROKEN, 6, END}},
    [STORE_APPEND] = {"tacho_store_append", {0, BROKEN, 12, 7, 8, 4, END}},
    [ARRAY_COUNT] = {"tacho_array_count", {0, 9, END}},
    [ARRAY_AT] = {"tacho_array_at", {0, 9, 10, END}},
    [RECORD_AT] = {"tacho_record_at", {0, 9, 10, END}},
    [UNIT_FRESH] = {"tacho_unit_fresh", {0, 11, 4, END}},
    [UNIT_STEP] = {"tacho_unit_step", {0, BROKEN, 11, 4, 1, 2, 3, END}},
    [UNIT_KIND] = {"tacho_unit_kind", {0, 11, END}}, /* a reader gives no number; 11 stands for TACHO_NO_STATE here */
    [UNIT_RATE] = {"tacho_unit_rate", {0, 11, END}},
    [UNIT_PHASE] = {"tacho_unit_phase", {0, 11, END}},
    [TOOL_FRESH] = {"tacho_tool_fresh", {0, 4, END}},
    [TOOL_BEGIN] = {"tacho_tool_begin", {0, 12, 11, 4, END}},
    [TOOL_ARRIVED] = {"tacho_tool_arrived", {0, 11, 4, END}},
    [TOOL_WAIT_ENDED] = {"tacho_tool_wait_ended", {0, 11, 4, END}},
    [TOOL_OUTCOME] = {"tacho_tool_outcome", {0, 11, END}},
    [TOOL_CODE] = {"tacho_tool_code", {0, 11, END}},
    [TOOL_EXPECTED] = {"tacho_tool_expected", {0, 11, END}},
    [TOOL_HELD] = {"tacho_tool_held", {0, 11, END}},
    [FRAME_CHECK_AT] = {"tacho_frame_check_at", {0, 2, 1, 3, END}},
    [FRAME_DATA_AT] = {"tacho_frame_data_at", {0, 2, 1, 3, END}},
    [FRAME_WRITE_AT] = {"tacho_frame_write_at", {0, 2, 1, 4, END}},
    [SUB_MESSAGE_AT] = {"tacho_sub_message_at", {0, 2, 8, 10, 4, END}},
    [UNIT_STEP_AT] = {"tacho_unit_step_at", {0, 2, BROKEN, 11, 4, 1, 3, END}},
    [TOOL_BEGIN_AT] = {"tacho_tool_begin_at", {0, 2, 12, 11, 4, END}},
    [TOOL_ARRIVED_AT] = {"tacho_tool_arrived_at", {0, 2, 11, 4, END}},
    [TOOL_WAIT_ENDED_AT] = {"tacho_tool_wait_ended_at", {0, 2, 11, 4, END}},
};

static unsigned long given[CALLS][NUMBERS];

static void count_number(call c, unsigned number)
{
    for (const int *n = CALL[c].numbers; *n != END; n++)
        if (number == (unsigned)*n) {
            given[c][number]++;
            return;
        }
    fail("%s gave %u, which is not among its numbers", CALL[c].name, number);
}

/* How often a call at two equal addresses was refused where the call without _at, by whose name it is counted here, gives this number for
 * the same inputs with the lab's addresses. */
static unsigned long behind[CALLS][NUMBERS];

/* What the numbers do not show. A day by any second in it (document 02, Req 03): a second inside a day is any but its first; a second of
 * the other day is one next to a day that the store holds. Addresses (Req 05): a frame with other addresses is good but for them. */
typedef enum {
    FOUND_INSIDE, NOT_FOUND_BESIDE, APPENDED_INSIDE, APPENDED_BESIDE, HELD_INSIDE, REQUESTED_INSIDE, NOT_HELD_BESIDE, SENT_ON_INSIDE,
    BEGUN_INSIDE, WAITED_INSIDE, FOUND_AT_86399, FOUND_AT_86400, FOUND_AT_LAST, GOOD_AT_00, GOOD_AT_FF, LAB_REFUSED, SWAPPED_REFUSED,
    SWAPPED_AT_OTHER_END, STARTED_ELSEWHERE, LAB_START_REFUSED, LAB_SUM_REFUSED, START_BEGUN_ELSEWHERE, OTHERS_SENT_AGAIN, OTHERS_GAVE_UP,
    CASES
} named_case;

static const char *const CASE[CASES] = {
    [FOUND_INSIDE] = "a lookup by a second inside a day found the answer",
    [NOT_FOUND_BESIDE] = "a lookup by a second of the other day gave 6",
    [APPENDED_INSIDE] = "an answer was appended by a second inside a day",
    [APPENDED_BESIDE] = "an answer was appended by a second of the other day",
    [HELD_INSIDE] = "an append by a second inside a day gave 7",
    [REQUESTED_INSIDE] = "a unit answered a request by a second inside a day",
    [NOT_HELD_BESIDE] = "a unit answered FA to a request by a second of the other day",
    [SENT_ON_INSIDE] = "a unit whose state has a second inside a day went on sending",
    [BEGUN_INSIDE] = "a transfer was begun by a second inside a day",
    [WAITED_INSIDE] = "a tool waited in a transfer by a second inside a day",
    [FOUND_AT_86399] = "a lookup by second 86,399 found an answer of day 0",
    [FOUND_AT_86400] = "a lookup by second 86,400 found an answer of day 1",
    [FOUND_AT_LAST] = "a lookup by second FFFFFFFF found an answer of day 49,710",
    [GOOD_AT_00] = "a frame with the address 00 was good",
    [GOOD_AT_FF] = "a frame with the address FF was good",
    [LAB_REFUSED] = "a frame with the lab's addresses was refused by 2 at others",
    [SWAPPED_REFUSED] = "a frame was refused by 2 at its own two addresses swapped",
    [SWAPPED_AT_OTHER_END] = "a frame to one end was good at the other, at its own two addresses swapped",
    [STARTED_ELSEWHERE] = "a unit at other addresses than the lab's heard a start",
    [LAB_START_REFUSED] = "a unit at other addresses than the lab's refused the lab's start by 2",
    [LAB_SUM_REFUSED] = "a unit at other addresses than the lab's refused a start with the lab's checksum by 3",
    [START_BEGUN_ELSEWHERE] = "a tool at other addresses than the lab's began start communication",
    [OTHERS_SENT_AGAIN] = "a frame with other addresses made a tool send again",
    [OTHERS_GAVE_UP] = "a frame with other addresses was a tool's third failed wait",
};

static unsigned long happened[CASES];

static void count_case(named_case c, bool came_about)
{
    if (came_about) happened[c]++;
}

/* How many numbers of the calls two equal addresses never came before. */
static unsigned not_behind(void)
{
    static const call addressed[] = {FRAME_CHECK, FRAME_DATA,   FRAME_WRITE,     SUB_MESSAGE, UNIT_STEP,
                                     TOOL_BEGIN,  TOOL_ARRIVED, TOOL_WAIT_ENDED};
    unsigned missing = 0;
    for (size_t k = 0; k < sizeof addressed / sizeof *addressed; k++)
        for (const int *n = CALL[addressed[k]].numbers; *n != END; n++) {
            if (behind[addressed[k]][*n]) continue;
            fprintf(stderr, "two equal addresses never came before %d of %s\n", *n, CALL[addressed[k]].name);
            missing++;
        }
    return missing;
}

/* A number that a call never gave was not compared there: the inputs have to reach it, and the cases above. Gives the count of calls. */
static unsigned long all_given(unsigned long rounds)
{
    unsigned long calls = 0;
    unsigned missing = not_behind();
    for (int c = 0; c < CASES; c++)
        if (happened[c] == 0) {
            fprintf(stderr, "it never happened that %s\n", CASE[c]);
            missing++;
        }
    for (int c = 0; c < CALLS; c++)
        for (const int *n = CALL[c].numbers; *n != END; n++) {
            calls += given[c][*n];
            if (given[c][*n]) continue;
            fprintf(stderr, "%s never gave %d\n", CALL[c].name, *n);
            missing++;
        }
    if (missing) fail("the inputs of %lu rounds do not reach %u of the numbers of the calls and of the cases", rounds, missing);
    return calls;
}

/* A result: its number, then its other fields. */
typedef struct {
    unsigned number;
    size_t fields[5];
} result;

static result of_number(uint8_t n)
{
    return (result){n, {0}};
}

static result of_written(tacho_written w)
{
    return (result){w.number, {w.len}};
}

static result of_counted(tacho_counted c)
{
    return (result){c.number, {c.count}};
}

static result of_part(tacho_part p)
{
    return (result){p.number, {p.start, p.len}};
}

static result of_fault(tacho_fault f)
{
    return (result){f.number, {f.position}};
}

static result of_held(tacho_held h)
{
    return (result){h.number, {h.start, h.len, h.trep, h.day}};
}

/* What a reader gave. */
static result of_read(size_t n)
{
    return (result){n == TACHO_NO_STATE ? 11 : 0, {n}};
}

static result of_array(tacho_array a)
{
    return (result){a.number, {a.start, a.len, a.type, a.size, a.count}};
}

/* Buffers lent to the proved call, and the copies that the reference gets. */
static guard lent[4];
static uint8_t copy[4][LONGEST], before[4][LONGEST];

static uint8_t *lend(int i, const uint8_t *bytes, size_t len)
{
    uint8_t *at = guard_lend(&lent[i], bytes, len);
    if (len) memcpy(copy[i], at, len);
    if (len) memcpy(before[i], at, len);
    return at;
}

/* The buffers as they were handed in, for another call on the same inputs; the copies stay as the reference left them. */
static void lend_again(int buffers)
{
    for (int i = 0; i < buffers; i++) guard_lend(&lent[i], before[i], lent[i].len);
}

static void show(const char *what, result r)
{
    fprintf(stderr, "%s: number %u, fields", what, r.number);
    for (int i = 0; i < 5; i++) fprintf(stderr, " %zu", r.fields[i]);
    fprintf(stderr, "\n");
}

/* The result and the buffers of a call: as the reference has them, and the buffers unchanged by a refused call. */
static void compare(call c, int buffers, result gave, result wanted)
{
    count_number(c, gave.number);
    bool same = gave.number == wanted.number && memcmp(gave.fields, wanted.fields, sizeof gave.fields) == 0;
    for (int i = 0; i < buffers; i++) {
        guard_check(&lent[i], CALL[c].name);
        same = same && memcmp(lent[i].at, copy[i], lent[i].len) == 0;
        if (gave.number != 0 && memcmp(lent[i].at, before[i], lent[i].len)) {
            hex("buffer", before[i], lent[i].len);
            fail("%s: refused by %u, and buffer %d has changed", CALL[c].name, gave.number, i);
        }
    }
    if (same) return;
    for (int i = 0; i < buffers; i++) {
        hex("handed in", before[i], lent[i].len);
        hex("  after", lent[i].at, lent[i].len);
        hex("  wanted", copy[i], lent[i].len);
    }
    show("gave", gave);
    show("wanted", wanted);
    fail("%s differs from the reference", CALL[c].name);
}

/* One round of each call */

static uint8_t bytes[LONGEST], more[LONGEST];

/* What came of a frame to one end, with the addresses `sent`, that was judged at an end with the addresses a. */
static void count_judged(addresses a, addresses sent, bool to_tool, bool at_tool, const uint8_t *f, size_t n, unsigned number)
{
    bool good_there = ref_frame_check_at(sent.unit, sent.tool, f, n, to_tool) == 0;
    bool others = good_there && a.unit != a.tool && !same_addresses(a, sent);
    bool swapped = others && same_addresses(a, (addresses){sent.tool, sent.unit});
    count_case(GOOD_AT_00, number == 0 && (a.unit == 0x00 || a.tool == 0x00));
    count_case(GOOD_AT_FF, number == 0 && (a.unit == 0xFF || a.tool == 0xFF));
    count_case(LAB_REFUSED, others && at_tool == to_tool && is_lab(sent) && number == 2);
    count_case(SWAPPED_REFUSED, swapped && at_tool == to_tool && number == 2);
    count_case(SWAPPED_AT_OTHER_END, swapped && at_tool != to_tool && number == 0);
}

static void judging(void)
{
    addresses a = some_addresses(), sent = random_below(4) ? a : other_addresses(a);
    bool to_tool = random_below(2), at_tool = random_below(8) ? to_tool : !to_tool;
    size_t n = some_frame(bytes, sent, to_tool, 1);
    const uint8_t *f = lend(0, bytes, n);
    compare(CHECKSUM, 1, (result){0, {tacho_checksum(f, n)}}, (result){0, {ref_checksum(copy[0], n)}});
    compare(FRAME_LENGTH, 1, (result){0, {tacho_frame_length(f, n)}}, (result){0, {ref_frame_length(copy[0], n)}});
    result number = of_number(ref_frame_check_at(a.unit, a.tool, copy[0], n, at_tool));
    result part = of_part(ref_frame_data_at(a.unit, a.tool, copy[0], n, at_tool));
    compare(FRAME_CHECK_AT, 1, of_number(tacho_frame_check_at(a.unit, a.tool, f, n, at_tool)), number);
    compare(FRAME_DATA_AT, 1, of_part(tacho_frame_data_at(a.unit, a.tool, f, n, at_tool)), part);
    count_judged(a, sent, to_tool, at_tool, bytes, n, number.number);
    if (is_lab(a)) {
        compare(FRAME_CHECK, 1, of_number(tacho_frame_check(f, n, at_tool)), number);
        compare(FRAME_DATA, 1, of_part(tacho_frame_data(f, n, at_tool)), part);
    }
    if (a.unit == a.tool) {
        readdress(copy[0], n, LAB, at_tool);
        behind[FRAME_CHECK][ref_frame_check(copy[0], n, at_tool)]++;
        behind[FRAME_DATA][ref_frame_data(copy[0], n, at_tool).number]++;
    }
}

static void writing(void)
{
    addresses a = some_addresses();
    bool to_tool = random_below(2);
    size_t n = random_below(8) ? some_length(300) : random_below(4), room = some_length(300);
    const uint8_t *d = lend(0, NULL, n);
    uint8_t *out = lend(1, NULL, room);
    result wanted = of_written(ref_frame_write_at(a.unit, a.tool, copy[0], n, to_tool, copy[1], room));
    compare(FRAME_WRITE_AT, 2, of_written(tacho_frame_write_at(a.unit, a.tool, d, n, to_tool, out, room)), wanted);
    if (is_lab(a)) {
        lend_again(2);
        compare(FRAME_WRITE, 2, of_written(tacho_frame_write(d, n, to_tool, out, room)), wanted);
    }
    if (a.unit == a.tool) behind[FRAME_WRITE][ref_frame_write(copy[0], n, to_tool, copy[1], room).number]++;
}

/* Sums worked out by hand: no byte, one turn of eight, a turn and a rest, two turns and a rest, the start frame's. */
static void known_sums(void)
{
    static const struct {
        const char *bytes;
        size_t len;
        uint8_t sum;
    } known[] = {
        {"", 0, 0x00},
        {"\x00\x01\x02\x03\x04\x05\x06\x07", 8, 0x1C},
        {"\xFF\xFF\xFF\xFF\xFF\xFF\xFF\xFF", 8, 0xF8},
        {"\x01\x01\x01\x01\x01\x01\x01\x01\x01", 9, 0x09},
        {"\xFF\xFF\xFF\xFF\xFF\xFF\xFF\xFF\xFF\xFF\xFF\xFF\xFF\xFF\xFF\xFF\xFF", 17, 0xEF},
        {"\x81\xEE\xF0\x81", 4, 0xE0},
    };
    for (size_t k = 0; k < sizeof known / sizeof *known; k++) {
        const uint8_t *b = lend(0, (const uint8_t *)known[k].bytes, known[k].len);
        compare(CHECKSUM, 1, (result){0, {tacho_checksum(b, known[k].len)}}, (result){0, {known[k].sum}});
    }
}

/* The checksum of so many bytes from every alignment: first they end at the inaccessible page, then before others. */
static void sums_of(size_t len)
{
    enum { ALIGNMENTS = 64 }; /* of a cache line: no load of the compiled loop is wider */
    for (size_t behind = 0; behind < ALIGNMENTS; behind++) {
        const uint8_t *b = lend(0, NULL, len + behind);
        compare(CHECKSUM, 1, (result){0, {tacho_checksum(b, len)}}, (result){0, {ref_checksum(copy[0], len)}});
    }
}

/* Where the turns of eight and the rest meet: short lengths, around each multiple of eight up to a frame, and around the longest answer. */
static void sums(void)
{
    known_sums();
    for (size_t len = 0; len <= 40; len++) sums_of(len);
    for (size_t turns = 5; turns * 8 < TACHO_FRAME_MOST + 8; turns++)
        for (size_t len = turns * 8 - 1; len <= turns * 8 + 1; len++) sums_of(len);
    for (size_t len = TACHO_ANSWER_MOST - 9; len <= TACHO_ANSWER_MOST + 9; len++) sums_of(len);
}

static void splitting(void)
{
    size_t n = some_length(random_below(8) ? 1000 : 60001), room = random_below(4) ? 260 : some_length(270);
    tacho_counted c = ref_sub_messages(n);
    uint16_t k = random_below(2) ? some_number((uint16_t)c.count) : (uint16_t)(1 + random_below((uint32_t)c.count));
    uint8_t trep = some_trep();
    addresses a = some_addresses();
    compare(SUB_MESSAGES, 0, of_counted(tacho_sub_messages(n)), of_counted(c));
    const uint8_t *d = lend(0, NULL, n);
    uint8_t *out = lend(1, NULL, room);
    result wanted = of_written(ref_sub_message_at(a.unit, a.tool, copy[0], n, trep, k, copy[1], room));
    compare(SUB_MESSAGE_AT, 2, of_written(tacho_sub_message_at(a.unit, a.tool, d, n, trep, k, out, room)), wanted);
    if (is_lab(a)) {
        lend_again(2);
        compare(SUB_MESSAGE, 2, of_written(tacho_sub_message(d, n, trep, k, out, room)), wanted);
    }
    if (a.unit == a.tool) behind[SUB_MESSAGE][ref_sub_message(copy[0], n, trep, k, copy[1], room).number]++;
}

/* Which cases of days came about */

static bool is_inside(uint8_t trep, uint32_t second)
{
    return is_dated(trep) && second % 86400 != 0;
}

static bool is_beside(const uint8_t *s, size_t n, uint8_t trep, uint32_t second)
{
    if (!is_dated(trep) || ref_store_lookup(s, n, trep, second).number != 6) return false;
    return ref_store_lookup(s, n, trep, second - 1).number == 0 || ref_store_lookup(s, n, trep, second + 1).number == 0;
}

static uint32_t four_at(const uint8_t *b)
{
    return (uint32_t)(two_at(b) << 16 | two_at(b + 2));
}

/* A step of the unit that was not refused: the state that it was handed, the frame that it heard and its reply. */
static void count_unit_days(const uint8_t *state, const uint8_t *store, size_t n, const uint8_t *frame, size_t frame_len,
                            const uint8_t *reply, size_t reply_len)
{
    if (frame_len <= REF_FRAME_DATA || reply_len == 0) return;
    const uint8_t *data = frame + REF_FRAME_DATA, *said = reply + REF_FRAME_DATA;
    if (data[0] == 0x36 && frame_len == REF_FRAME_DATA + 6 + 1) {
        uint32_t second = four_at(data + 2);
        count_case(REQUESTED_INSIDE, said[0] == 0x76 && is_inside(data[1], second));
        count_case(NOT_HELD_BESIDE, said[0] == 0x7F && said[2] == 0xFA && is_beside(store, n, data[1], second));
    }
    if (data[0] == 0x83 && said[0] == 0x76)
        count_case(SENT_ON_INSIDE, is_inside(state[TACHO_UNIT_AT_TREP], four_at(state + TACHO_UNIT_AT_DAY)));
}

/* An event of the tool that was not refused: the state that it was handed. */
static void count_tool_days(const uint8_t *state)
{
    bool transfer = state[TACHO_TOOL_AT_REQUEST] == TACHO_REQUEST_TRANSFER;
    count_case(WAITED_INSIDE, transfer && is_inside(state[TACHO_TOOL_AT_TREP], four_at(state + TACHO_TOOL_AT_DAY)));
}

static void appending(size_t n, uint8_t trep, uint32_t day)
{
    size_t a = random_below(8) ? 2 + random_below(300) : some_length(60001);
    /* sometimes an answer with which the stream is 60,000 bytes long, or just not */
    size_t stream = ref_store_stream(bytes, n).len;
    if (random_below(32) == 0 && stream < 60000) a = 59999 - stream + random_below(4);
    size_t room = n + (random_below(4) ? 8 + a : random_below(400));
    if (room > LONGEST) room = LONGEST;
    if (room > n) random_bytes(bytes + n, room - n);
    uint8_t *store = lend(0, bytes, room);
    random_bytes(more, a);
    if (a > 1 && random_below(12)) more[0] = 0x76, more[1] = trep;
    const uint8_t *answer = lend(1, more, a);
    if (random_below(3)) day = some_day(trep);
    tacho_written w = tacho_store_append(store, room, answer, a, day);
    tacho_written v = ref_store_append(copy[0], room, copy[1], a, day);
    compare(STORE_APPEND, 2, of_written(w), of_written(v));
    if (a < 2) return;
    count_case(APPENDED_INSIDE, w.number == 0 && is_inside(more[1], day));
    count_case(APPENDED_BESIDE, w.number == 0 && is_beside(bytes, n, more[1], day));
    count_case(HELD_INSIDE, w.number == 7 && is_inside(more[1], day));
}

static void stores(void)
{
    uint8_t trep;
    uint32_t day;
    size_t n = some_store(bytes);
    const uint8_t *s = lend(0, bytes, n);
    compare(STORE_FAULT, 1, of_fault(tacho_store_fault(s, n)), of_fault(ref_store_fault(copy[0], n)));
    compare(STORE_CHECK, 1, of_number(tacho_store_check(s, n)), of_number(ref_store_check(copy[0], n)));
    name_in(bytes, n, &trep, &day);
    tacho_part p = tacho_store_lookup(s, n, trep, day), q = ref_store_lookup(copy[0], n, trep, day);
    compare(STORE_LOOKUP, 1, of_part(p), of_part(q));
    count_case(FOUND_INSIDE, p.number == 0 && is_inside(trep, day));
    count_case(NOT_FOUND_BESIDE, p.number == 6 && is_beside(bytes, n, trep, day));
    count_case(FOUND_AT_86399, p.number == 0 && day == 86399);
    count_case(FOUND_AT_86400, p.number == 0 && day == 86400);
    count_case(FOUND_AT_LAST, p.number == 0 && day == 0xFFFFFFFF);
    p = tacho_store_stream(s, n), q = ref_store_stream(copy[0], n);
    compare(STORE_STREAM, 1, of_part(p), of_part(q));
    compare(STORE_COUNT, 1, of_counted(tacho_store_count(s, n)), of_counted(ref_store_count(copy[0], n)));
    size_t k = random_below(4) ? random_below(5) : random_below(70);
    compare(STORE_ANSWER, 1, of_held(tacho_store_answer(s, n, k)), of_held(ref_store_answer(copy[0], n, k)));
    appending(n, trep, day);
}

static void arrays(void)
{
    size_t n = some_body(bytes);
    const uint8_t *b = lend(0, bytes, n);
    size_t k = random_below(7), r = random_below(13);
    compare(ARRAY_COUNT, 1, of_counted(tacho_array_count(b, n)), of_counted(ref_array_count(copy[0], n)));
    compare(ARRAY_AT, 1, of_array(tacho_array_at(b, n, k)), of_array(ref_array_at(copy[0], n, k)));
    compare(RECORD_AT, 1, of_part(tacho_record_at(b, n, k, r)), of_part(ref_record_at(copy[0], n, k, r)));
}

/* What came of a start at a unit with the addresses a. */
static void count_starts(addresses a, addresses sent, const uint8_t *f, size_t n, unsigned number)
{
    bool start = n == 5 && f[0] == 0x81, elsewhere = start && a.unit != a.tool && !is_lab(a);
    count_case(STARTED_ELSEWHERE, elsewhere && number == 0);
    count_case(LAB_START_REFUSED, elsewhere && is_lab(sent) && number == 2 && ref_frame_check(f, n, false) == 0);
    count_case(LAB_SUM_REFUSED, elsewhere && f[4] == 0xE0 && number == 3);
}

/* One step of the unit at the addresses a, with its state (0) and store (1) lent. */
static void unit_hears(addresses a, uint8_t *s, size_t state_len, const uint8_t *store, size_t n)
{
    uint8_t frame[300];
    addresses sent = random_below(8) ? a : other_addresses(a);
    size_t frame_len = random_below(6) ? some_frame(frame, sent, false, number_at(s, state_len, TACHO_UNIT_AT_LAST))
                                       : some_held_request(frame, sent, bytes, n);
    size_t room = random_below(12) ? 260 + random_below(3) : random_below(260);
    const uint8_t *f = lend(2, frame, frame_len);
    uint8_t *reply = lend(3, NULL, room);
    result wanted = of_written(ref_unit_step_at(a.unit, a.tool, copy[0], state_len, copy[1], n, copy[2], frame_len, copy[3], room));
    tacho_written w = tacho_unit_step_at(a.unit, a.tool, s, state_len, store, n, f, frame_len, reply, room);
    compare(UNIT_STEP_AT, 4, of_written(w), wanted);
    count_starts(a, sent, frame, frame_len, w.number);
    if (w.number == 0) count_unit_days(before[0], bytes, n, frame, frame_len, reply, w.len);
    if (is_lab(a)) {
        lend_again(4);
        compare(UNIT_STEP, 4, of_written(tacho_unit_step(s, state_len, store, n, f, frame_len, reply, room)), wanted);
    }
    if (a.unit == a.tool) {
        readdress(copy[2], frame_len, LAB, false);
        behind[UNIT_STEP][ref_unit_step(copy[0], state_len, copy[1], n, copy[2], frame_len, copy[3], room).number]++;
    }
}

static void units(void)
{
    uint8_t state[STATE_ROOM], kind = (uint8_t)random_below(5);
    size_t n = some_store(bytes), state_len = some_unit_state(state, bytes, n);
    size_t fresh_len = random_below(4) ? random_below(STATE_ROOM) : TACHO_UNIT_STATE;
    addresses at = some_addresses();
    uint8_t *s = lend(0, NULL, fresh_len);
    uint8_t a = tacho_unit_fresh(kind, s, fresh_len), b = ref_unit_fresh(kind, copy[0], fresh_len);
    compare(UNIT_FRESH, 1, of_number(a), of_number(b));
    s = lend(0, state, state_len);
    compare(UNIT_KIND, 1, of_read(tacho_unit_kind(s, state_len)), of_read(ref_unit_kind(copy[0], state_len)));
    compare(UNIT_RATE, 1, of_read(tacho_unit_rate(s, state_len)), of_read(ref_unit_rate(copy[0], state_len)));
    compare(UNIT_PHASE, 1, of_read(tacho_unit_phase(s, state_len)), of_read(ref_unit_phase(copy[0], state_len)));
    const uint8_t *store = lend(1, bytes, n);
    for (int step = 0; step < 6; step++) {
        if (step) s = lend(0, s, state_len), store = lend(1, store, n);
        unit_hears(at, s, state_len, store, n);
    }
}

/* One call of the tool at the addresses a, with its state (0), room (1) and output (2) lent. */

static void tool_begins(addresses a, uint8_t *s, size_t state_len, uint8_t *out, size_t out_len)
{
    uint8_t request = (uint8_t)(random_below(2) ? TACHO_REQUEST_TRANSFER : random_below(7));
    uint8_t trep = request == TACHO_REQUEST_TRANSFER || random_below(6) == 0 ? some_trep() : 0;
    uint32_t day = request == TACHO_REQUEST_TRANSFER || random_below(6) == 0 ? some_day(trep) : 0;
    result wanted = of_written(ref_tool_begin_at(a.unit, a.tool, copy[0], state_len, request, trep, day, copy[2], out_len));
    tacho_written w = tacho_tool_begin_at(a.unit, a.tool, s, state_len, request, trep, day, out, out_len);
    compare(TOOL_BEGIN_AT, 3, of_written(w), wanted);
    count_case(BEGUN_INSIDE, w.number == 0 && request == TACHO_REQUEST_TRANSFER && is_inside(trep, day));
    count_case(START_BEGUN_ELSEWHERE, w.number == 0 && request == TACHO_REQUEST_START && !is_lab(a));
    if (is_lab(a)) {
        lend_again(3);
        compare(TOOL_BEGIN, 3, of_written(tacho_tool_begin(s, state_len, request, trep, day, out, out_len)), wanted);
    }
    if (a.unit == a.tool) behind[TOOL_BEGIN][ref_tool_begin(copy[0], state_len, request, trep, day, copy[2], out_len).number]++;
}

static void tool_hears(addresses a, uint8_t *s, size_t state_len, uint8_t *room, size_t room_len, uint8_t *out, size_t out_len)
{
    uint8_t frame[300];
    addresses sent = random_below(8) ? a : other_addresses(a);
    size_t n = some_arrival(frame, sent, s, state_len);
    const uint8_t *f = lend(3, frame, n);
    result wanted = of_written(ref_tool_arrived_at(a.unit, a.tool, copy[0], state_len, copy[3], n, copy[1], room_len, copy[2], out_len));
    tacho_written w = tacho_tool_arrived_at(a.unit, a.tool, s, state_len, f, n, room, room_len, out, out_len);
    compare(TOOL_ARRIVED_AT, 4, of_written(w), wanted);
    if (w.number == 0) count_tool_days(before[0]);
    bool others = w.number == 0 && !same_addresses(a, sent) && ref_frame_check_at(sent.unit, sent.tool, frame, n, true) == 0;
    count_case(OTHERS_SENT_AGAIN, others && w.len > 0);
    count_case(OTHERS_GAVE_UP, others && tacho_tool_outcome(s, state_len) == TACHO_OUTCOME_NO_ANSWER);
    if (is_lab(a)) {
        lend_again(4);
        compare(TOOL_ARRIVED, 4, of_written(tacho_tool_arrived(s, state_len, f, n, room, room_len, out, out_len)), wanted);
    }
    if (a.unit == a.tool)
        behind[TOOL_ARRIVED][ref_tool_arrived(copy[0], state_len, copy[3], n, copy[1], room_len, copy[2], out_len).number]++;
}

static void tool_waited(addresses a, uint8_t *s, size_t state_len, uint8_t *room, size_t room_len, uint8_t *out, size_t out_len)
{
    result wanted = of_written(ref_tool_wait_ended_at(a.unit, a.tool, copy[0], state_len, copy[1], room_len, copy[2], out_len));
    tacho_written w = tacho_tool_wait_ended_at(a.unit, a.tool, s, state_len, room, room_len, out, out_len);
    compare(TOOL_WAIT_ENDED_AT, 3, of_written(w), wanted);
    if (w.number == 0) count_tool_days(before[0]);
    if (is_lab(a)) {
        lend_again(3);
        compare(TOOL_WAIT_ENDED, 3, of_written(tacho_tool_wait_ended(s, state_len, room, room_len, out, out_len)), wanted);
    }
    if (a.unit == a.tool)
        behind[TOOL_WAIT_ENDED][ref_tool_wait_ended(copy[0], state_len, copy[1], room_len, copy[2], out_len).number]++;
}

static void tools(void)
{
    uint8_t state[STATE_ROOM];
    size_t state_len = some_tool_state(state);
    size_t fresh_len = random_below(4) ? random_below(STATE_ROOM) : TACHO_TOOL_STATE;
    addresses at = some_addresses();
    uint8_t *s = lend(0, NULL, fresh_len);
    compare(TOOL_FRESH, 1, of_number(tacho_tool_fresh(s, fresh_len)), of_number(ref_tool_fresh(copy[0], fresh_len)));
    size_t room_len = random_below(3) ? 600 + random_below(400) : some_length(60001);
    s = lend(0, state, state_len);
    compare(TOOL_OUTCOME, 1, of_read(tacho_tool_outcome(s, state_len)), of_read(ref_tool_outcome(copy[0], state_len)));
    compare(TOOL_CODE, 1, of_read(tacho_tool_code(s, state_len)), of_read(ref_tool_code(copy[0], state_len)));
    compare(TOOL_EXPECTED, 1, of_read(tacho_tool_expected(s, state_len)), of_read(ref_tool_expected(copy[0], state_len)));
    compare(TOOL_HELD, 1, of_read(tacho_tool_held(s, state_len)), of_read(ref_tool_held(copy[0], state_len)));
    uint8_t *room = lend(1, NULL, room_len);
    for (int step = 0; step < 6; step++) {
        size_t out_len = random_below(12) ? 260 + random_below(3) : random_below(260);
        if (step) s = lend(0, s, state_len), room = lend(1, room, room_len);
        uint8_t *out = lend(2, NULL, out_len);
        uint32_t what = random_below(6);
        if (what == 0) tool_begins(at, s, state_len, out, out_len);
        else if (what == 1) tool_waited(at, s, state_len, room, room_len, out, out_len);
        else tool_hears(at, s, state_len, room, room_len, out, out_len);
    }
}

int main(int argc, char **argv)
{
    unsigned long rounds = argc > 1 ? strtoul(argv[1], NULL, 10) : 60000;
    uint64_t seed = argc > 2 ? strtoull(argv[2], NULL, 10) : (uint64_t)time(NULL);
    random_seed(seed);
    printf("differential: seed %llu\n", (unsigned long long)seed);
    fflush(stdout); /* it stays readable where a sanitizer or a guard page ends the test */
    for (int i = 0; i < 4; i++) guard_make(&lent[i], LONGEST);
    sums();
    for (unsigned long i = 0; i < rounds; i++) {
        judging();
        writing();
        splitting();
        stores();
        arrays();
        units();
        tools();
    }
    unsigned long calls = all_given(rounds);
    printf("differential: %lu calls agree with the reference\n", calls);
    return 0;
}

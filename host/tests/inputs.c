#include "inputs.h"

#include "spoilt.h"
#include "support.h"

#include <string.h>

uint8_t some_trep(void)
{
    return random_below(12) ? TREPS[random_below(sizeof TREPS)] : (uint8_t)random_below(256);
}

bool is_dated(uint8_t trep)
{
    return memchr(DATED, trep, sizeof DATED);
}

/* The first second of a day: one of so many, or of the last two that four bytes can name. */
static uint32_t some_first_second(uint32_t days)
{
    return 86400 * (random_below(8) ? random_below(days) : 49709 + random_below(2));
}

/* A second of the day that begins at this one, often at its edges, or one next to that day. Four bytes come round at their end. */
static uint32_t some_second(uint32_t first)
{
    switch (random_below(10)) {
    case 0: return first - 1;
    case 1: return first + 86400;
    case 2: return first + 86399;
    case 3: return first + 1;
    case 4: return first + 43200;
    case 5: return first | 0xFFFF; /* less than a day later; of the last day it is the end, FFFFFFFF */
    case 6: case 7: return first + random_below(86400);
    default: return first;
    }
}

/* The day beside a TREP: for activities any second, near the days that stores have; else mostly 0. */
uint32_t some_day(uint8_t trep)
{
    if (random_below(24) == 0) return random_below(0x10000) << 16 | random_below(0x10000);
    if (is_dated(trep)) return some_second(some_first_second(4));
    return random_below(24) ? 0 : some_second(0);
}

size_t some_length(size_t most)
{
    static const size_t edges[] = {0, 1, 2, 3, 4, 5, 6, 250, 251, 252, 253, 254, 255, 256, 259, 260, 261, 501, 502, 503,
                                   753, 59997, 59998, 59999, 60000, 60001};
    size_t n = random_below(random_below(8) ? 600 : 60001);
    if (random_below(3)) n = edges[random_below(sizeof edges / sizeof *edges)];
    return n < most ? n : most;
}

static void damage(uint8_t *b, size_t *n, size_t room)
{
    switch (random_below(5)) {
    case 0:
        if (*n) b[random_below((uint32_t)*n)] ^= (uint8_t)(1 + random_below(255));
        break;
    case 1: *n = random_below((uint32_t)*n + 1); break;
    case 2:
        if (*n < room) b[(*n)++] = (uint8_t)random_below(256);
        break;
    case 3:
        if (*n > 1) b[random_below((uint32_t)*n)] = b[random_below((uint32_t)*n)];
        break;
    default: break;
    }
}

/* A 16-bit number of a frame: mostly near the one last sent or expected; else FFFF, 0, any, or one bit off. */
uint16_t some_number(uint16_t near)
{
    switch (random_below(9)) {
    case 0: return 0xFFFF;
    case 1: return 0;
    case 2: return (uint16_t)random_below(0x10000);
    case 3: return (uint16_t)((random_below(2) ? near : 0xFFFF) ^ 1u << random_below(16));
    default: return (uint16_t)(near + random_below(4) - 1);
    }
}

/* The data of a reply, often a good one; a sub message's number lies near the one given. */
static size_t some_reply(uint8_t *d, uint16_t near)
{
    static const uint8_t replies[][3] = {{0xC1, 0xEA, 0x8F}, {0x50, 0x81}, {0x75, 0, 0xFF}, {0x77}, {0xC2}, {0xC7, 1}};
    static const uint8_t reply_lengths[] = {3, 2, 3, 1, 1, 2};
    static const uint8_t sids[] = {0x81, 0x10, 0x35, 0x36, 0x37, 0x82, 0x83};
    static const uint8_t codes[] = {0x10, 0x11, 0x12, 0x13, 0x22, 0x31, 0x78, 0xFA, 0};
    uint32_t kind = random_below(7), i = random_below(6);
    if (kind < 2) {
        memcpy(d, replies[i], reply_lengths[i]);
        return reply_lengths[i];
    }
    if (kind < 3) {
        d[0] = 0x7F;
        d[1] = sids[random_below(sizeof sids)];
        d[2] = codes[random_below(sizeof codes)];
        return 3;
    }
    /* full, the end mark, or any */
    size_t n = random_below(3) ? 255 : random_below(4) ? 2 + random_below(254) : 4;
    uint16_t number = some_number(near);
    random_bytes(d, n);
    d[0] = 0x76;
    d[1] = some_trep();
    if (n > 3) memcpy(d + 2, (const uint8_t[]){REF_TWO_BYTES(number)}, 2);
    return n;
}

/* The data of a request, often a good one; an acknowledge code lies near the number given. */
static size_t some_request(uint8_t *d, uint16_t near)
{
    static const uint8_t requests[][10] = {{0x10, 0x81}, {0x35, 0, 0, 0, 0, 0, 0xFF, 0xFF, 0xFF, 0xFF},
                                           {0x37}, {0x82}, {0x87, 1, 1, 3}, {0x87, 2, 3}, {0x81}, {0x87, 5, 0}};
    static const size_t request_lengths[] = {2, 10, 1, 1, 4, 3, 1, 3};
    uint32_t kind = random_below(7), i = random_below(8);
    if (kind < 3) {
        memcpy(d, requests[i], request_lengths[i]);
        if (request_lengths[i] == 4) d[3] = (uint8_t)random_below(7);
        return request_lengths[i];
    }
    if (kind < 5) {
        uint8_t trep = some_trep();
        uint32_t day = some_day(trep);
        uint8_t b[6] = {0x36, trep, REF_FOUR_BYTES(day)};
        memcpy(d, b, sizeof b);
        return is_dated(trep) ? 6 : 2;
    }
    uint16_t code = some_number(near);
    uint8_t b[4] = {0x83, 0x76, REF_TWO_BYTES(code)};
    memcpy(d, b, sizeof b);
    return 4;
}

static size_t some_data(uint8_t *d, bool to_tool, uint16_t near)
{
    size_t n;
    if (random_below(8) == 0) {
        n = some_length(255);
        random_bytes(d, n);
    } else {
        n = to_tool ? some_reply(d, near) : some_request(d, near);
    }
    if (random_below(8) == 0) damage(d, &n, 255);
    return n;
}

/* The lab's start, readdressed; sometimes with the lab's checksum still. */
static size_t some_start(uint8_t *f, addresses a)
{
    static const uint8_t start[5] = {0x81, REF_UNIT_ADDRESS, REF_TOOL_ADDRESS, 0x81, 0xE0};
    memcpy(f, start, sizeof start);
    readdress(f, sizeof start, a, false);
    if (random_below(6) == 0) f[4] = start[4];
    return sizeof start;
}

size_t some_frame(uint8_t *f, addresses a, bool to_tool, uint16_t near)
{
    uint8_t d[256];
    size_t n = some_data(d, to_tool, near);
    if (!to_tool && random_below(8) == 0) {
        n = some_start(f, a);
    } else {
        n = ref_frame_write(d, n, to_tool, f, 300).len;
        readdress(f, n, a, to_tool);
    }
    if (random_below(6) == 0) damage(f, &n, 300);
    if (random_below(40) == 0) {
        n = random_below(12);
        random_bytes(f, n);
    }
    return n;
}

addresses some_addresses(void)
{
    uint8_t both = some_address();
    uint32_t kind = random_below(12);
    if (kind == 0) return (addresses){both, both};
    return kind < 6 ? LAB : different_addresses();
}

/* Answers in an empty store: a few, often around the lengths where splitting changes; many short ones; or 64. */
static void some_answers(uint8_t *s, size_t room)
{
    static uint8_t answer[60001];
    bool full = random_below(200) == 0;
    uint32_t answers = full ? 64 : random_below(3) ? random_below(5) : random_below(70);
    for (uint32_t i = 0; i < answers; i++) {
        size_t n = answers > 5 ? 2 + random_below(8) : 2 + some_length(random_below(20) ? 800 : 59998);
        random_bytes(answer, n);
        answer[0] = 0x76;
        bool dated = full || (answers < 5 && random_below(2)); /* long answers of some days too */
        answer[1] = dated ? DATED[random_below(sizeof DATED)] : TREPS[random_below(sizeof TREPS)];
        uint32_t day = full ? 86400 * i : some_first_second(40);
        ref_store_append(s, room, answer, n, is_dated(answer[1]) ? day : 0);
    }
}

/* A fault of any number at any entry, if it fits: the length of the buffer. */
static size_t some_fault(uint8_t *s)
{
    uint32_t number = 13 + random_below(5);
    fault f = {random_below(FAULTS), random_below((uint32_t)count_in(s)), 0};
    while (FAULT[f.kind].number != number) f.kind = random_below(FAULTS);
    f.first = random_below((uint32_t)f.at);
    if (f.kind == STREAM_OVER) f.at = 60001;
    if (f.kind == COUNT_OVER) f.at = 65;
    if (!fault_fits(s, f)) return whole(s);
    spoil_store(s, s, f);
    return spoilt_len(s, f);
}

/* A store, sometimes with a fault, damaged or with bytes behind it. */
size_t some_store(uint8_t *s)
{
    size_t room = random_below(4) ? 2000 : LONGEST;
    memset(s, 0, room);
    some_answers(s, room);
    size_t n = whole(s), front = REF_STORE_HEADER + REF_STORE_ENTRY;
    if (random_below(6) == 0) n = some_fault(s);
    if (random_below(6) == 0) damage(s, &n, room);
    if (random_below(4) == 0 && n + 20 < room) {
        random_bytes(s + n, 20);
        n += random_below(21);
    }
    if (random_below(12) == 0 && n > front) damage(s, &(size_t){front}, front);
    return n;
}

/* The name of an answer in an unbroken store, if it has one; activities by a second of their day, or next to it. */
void name_in(const uint8_t *s, size_t n, uint8_t *trep, uint32_t *day)
{
    *trep = some_trep();
    *day = some_day(*trep);
    tacho_counted answers = ref_store_count(s, n);
    if (answers.count == 0 || random_below(5) == 0) return;
    tacho_held held = ref_store_answer(s, n, random_below((uint32_t)answers.count));
    *trep = held.trep;
    *day = is_dated(held.trep) ? some_second(held.day) : held.day;
}

/* The frame of a request for an answer that the store holds, or for one beside it: so requests of activities meet their day. */
size_t some_held_request(uint8_t *f, addresses a, const uint8_t *s, size_t n)
{
    uint8_t trep;
    uint32_t day;
    name_in(s, n, &trep, &day);
    uint8_t d[6] = {0x36, trep, REF_FOUR_BYTES(day)};
    size_t len = ref_frame_write(d, is_dated(trep) ? 6 : 2, false, f, 300).len;
    readdress(f, len, a, false);
    return len;
}

/* The name of an answer that is split, and how many sub messages it takes; 0 where the store shows none. */
static size_t split_in(const uint8_t *s, size_t n, uint8_t *trep, uint32_t *day)
{
    for (int tries = 0; tries < 3; tries++) {
        name_in(s, n, trep, day);
        tacho_part a = ref_store_lookup(s, n, *trep, *day);
        if (a.number == 0 && a.len - 2 > 252) return ref_sub_messages(a.len - 2).count;
    }
    return 0;
}

/* What a unit that sends has besides: mostly one of the answer's sub messages, often the last. */
static void some_sending(uint8_t *b, uint8_t trep, uint32_t day, size_t count)
{
    uint32_t last = random_below(3) ? 1 + random_below((uint32_t)count) : (uint32_t)count;
    if (random_below(8) == 0) last = some_number((uint16_t)count);
    b[TACHO_UNIT_AT_TREP] = trep;
    memcpy(b + TACHO_UNIT_AT_DAY, (const uint8_t[]){REF_FOUR_BYTES(day)}, 4);
    memcpy(b + TACHO_UNIT_AT_LAST, (const uint8_t[]){REF_TWO_BYTES(last)}, 2);
}

/* A unit's state: often sending, if the store shows an answer to send. */
size_t some_unit_state(uint8_t *b, const uint8_t *store, size_t store_len)
{
    uint8_t trep;
    uint32_t day;
    size_t n = TACHO_UNIT_STATE, count = split_in(store, store_len, &trep, &day);
    memset(b, 0, STATE_ROOM);
    b[TACHO_UNIT_AT_KIND] = (uint8_t)random_below(random_below(20) ? 3 : 5);
    b[TACHO_UNIT_AT_RATE] = (uint8_t)(random_below(20) ? 1 + random_below(5) : random_below(256));
    b[TACHO_UNIT_AT_PENDING] = (uint8_t)(random_below(20) ? random_below(6) : random_below(256));
    b[TACHO_UNIT_AT_PHASE] = (uint8_t)(random_below(20) ? random_below(5) : random_below(256));
    if (count > 0 && random_below(3) == 0) b[TACHO_UNIT_AT_PHASE] = TACHO_PHASE_SENDING;
    if (b[TACHO_UNIT_AT_PHASE] == TACHO_PHASE_SENDING) some_sending(b, trep, day, count);
    if (random_below(20) == 0) damage(b, &n, STATE_ROOM);
    return n;
}

/* What a tool in a transfer has besides: the bytes held are mostly those that belong to the number expected. */
static void some_transfer(uint8_t *b)
{
    uint8_t trep = some_trep();
    uint32_t day = some_day(trep), expected = random_below(4) ? 1 + random_below(3) : random_below(260);
    uint32_t held = expected == 1 ? 0 : 2 + 251 * (expected - 1);
    b[TACHO_TOOL_AT_TREP] = trep;
    memcpy(b + TACHO_TOOL_AT_DAY, (const uint8_t[]){REF_FOUR_BYTES(day)}, 4);
    memcpy(b + TACHO_TOOL_AT_EXPECTED, (const uint8_t[]){REF_TWO_BYTES(expected)}, 2);
    memcpy(b + TACHO_TOOL_AT_HELD, (const uint8_t[]){REF_FOUR_BYTES(held)}, 4);
}

size_t some_tool_state(uint8_t *b)
{
    size_t n = TACHO_TOOL_STATE;
    uint8_t request = (uint8_t)(random_below(3) ? TACHO_REQUEST_TRANSFER : random_below(6));
    uint8_t outcome = (uint8_t)(random_below(4) ? TACHO_OUTCOME_WAITING : random_below(6));
    memset(b, 0, STATE_ROOM);
    b[TACHO_TOOL_AT_REQUEST] = request;
    b[TACHO_TOOL_AT_OUTCOME] = outcome;
    b[TACHO_TOOL_AT_CODE] = outcome == TACHO_OUTCOME_REFUSED ? (uint8_t)random_below(256) : 0;
    b[TACHO_TOOL_AT_SENDINGS] = (uint8_t)(random_below(20) ? 1 + random_below(3) : random_below(256));
    if (request == TACHO_REQUEST_TRANSFER || random_below(8) == 0) some_transfer(b);
    if (random_below(25) == 0) damage(b, &n, STATE_ROOM);
    return n;
}

size_t some_body(uint8_t *b)
{
    size_t n = 0;
    for (uint32_t arrays = random_below(6); arrays > 0; arrays--) {
        uint32_t size = random_below(20) ? 1 + random_below(40) : random_below(300);
        uint32_t count = random_below(12);
        if (n + 5 + size * count > 4000) break;
        random_bytes(b + n, 5 + size * count);
        memcpy(b + n + 1, (const uint8_t[]){REF_TWO_BYTES(size), REF_TWO_BYTES(count)}, 4);
        n += 5 + size * count;
    }
    if (random_below(6) == 0) damage(b, &n, 4000);
    return n;
}

uint16_t number_at(const uint8_t *state, size_t len, size_t at)
{
    return len > at + 1 ? (uint16_t)(state[at] << 8 | state[at + 1]) : 0;
}

/* The frame that arrives, with the addresses `sent`: often the sub message that is expected, so that whole transfers are walked through. */
size_t some_arrival(uint8_t *frame, addresses sent, const uint8_t *s, size_t state_len)
{
    size_t n = some_frame(frame, sent, true, number_at(s, state_len, TACHO_TOOL_AT_EXPECTED));
    uint8_t *data = frame + REF_FRAME_DATA;
    if (random_below(2) && n > REF_FRAME_DATA + 4 && state_len == TACHO_TOOL_STATE && data[0] == 0x76) {
        data[1] = s[TACHO_TOOL_AT_TREP];
        memcpy(data + 2, s + TACHO_TOOL_AT_EXPECTED, 2);
        frame[n - 1] = ref_checksum(frame, n - 1);
    }
    return n;
}

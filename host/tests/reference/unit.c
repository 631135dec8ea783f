/* Document 01, The unit; document 02, Req 03 and Req 05. */
#include "reference.h"
#include "tables.h"

#include <string.h>

typedef struct {
    uint8_t kind, rate, pending, phase, trep;
    uint32_t day; /* the second as it came */
    uint32_t last;
} unit;

uint8_t ref_unit_fresh(uint8_t kind, uint8_t *state, size_t len)
{
    if (kind > 2) return 11;
    if (len < TACHO_UNIT_STATE) return 4;
    memset(state, 0, TACHO_UNIT_STATE);
    state[TACHO_UNIT_AT_KIND] = kind;
    state[TACHO_UNIT_AT_RATE] = 1;
    return 0;
}

static bool unpack(const uint8_t *s, size_t len, unit *u)
{
    if (len != TACHO_UNIT_STATE || s[TACHO_UNIT_AT_PHASE] > TACHO_PHASE_SENDING) return false;
    *u = (unit){s[TACHO_UNIT_AT_KIND], s[TACHO_UNIT_AT_RATE], s[TACHO_UNIT_AT_PENDING], s[TACHO_UNIT_AT_PHASE],
                s[TACHO_UNIT_AT_TREP], ref_be32(s + TACHO_UNIT_AT_DAY), ref_be16(s + TACHO_UNIT_AT_LAST)};
    return u->phase == TACHO_PHASE_SENDING || (u->trep == 0 && u->day == 0 && u->last == 0);
}

static void pack(const unit *u, uint8_t *s)
{
    bool sending = u->phase == TACHO_PHASE_SENDING;
    uint32_t day = sending ? u->day : 0, last = sending ? u->last : 0;
    uint8_t b[TACHO_UNIT_STATE] = {
        [TACHO_UNIT_AT_KIND] = u->kind,
        [TACHO_UNIT_AT_RATE] = u->rate,
        [TACHO_UNIT_AT_PENDING] = u->pending,
        [TACHO_UNIT_AT_PHASE] = u->phase,
        [TACHO_UNIT_AT_TREP] = sending ? u->trep : 0,
        [TACHO_UNIT_AT_DAY] = REF_FOUR_BYTES(day),
        [TACHO_UNIT_AT_LAST] = REF_TWO_BYTES(last),
    };
    memcpy(s, b, sizeof b);
}

static size_t frames_of(size_t answer_len)
{
    return ref_sub_messages(answer_len - 2).count;
}

static bool possible(const unit *u, const uint8_t *store)
{
    if (u->kind > 2 || u->rate < 1 || u->rate > 5 || u->pending > 5) return false;
    if (u->phase != TACHO_PHASE_SENDING) return true;
    tacho_part a = ref_store_find(store, u->trep, u->day);
    return a.number == 0 && a.len - 2 > 252 && u->last >= 1 && u->last <= frames_of(a.len);
}

static size_t say(const uint8_t *data, size_t len, ref_output reply)
{
    return ref_frame_write_at(reply.unit, reply.tool, data, len, true, reply.bytes, 260).len;
}

static size_t refuse(uint8_t sid, uint8_t code, ref_output reply)
{
    uint8_t d[3] = {0x7F, sid, code};
    return say(d, 3, reply);
}

static size_t send_part(const uint8_t *store, tacho_part a, uint32_t k, ref_output reply)
{
    const uint8_t *answer = store + a.start;
    return ref_sub_message_at(reply.unit, reply.tool, answer + 2, a.len - 2, answer[1], (uint16_t)k, reply.bytes, 260).len;
}

static size_t on_rate(unit *u, const uint8_t *d, size_t n, uint8_t pending, ref_output reply)
{
    if (n < 3) return refuse(0x87, 0x13, reply);
    if (d[1] == 1) {
        if (n != 4) return refuse(0x87, 0x13, reply);
        if (d[2] != 1 || d[3] < 1 || d[3] > 5) return refuse(0x87, 0x31, reply);
        if (u->phase != TACHO_PHASE_SESSION) return refuse(0x87, 0x22, reply);
        u->pending = d[3];
        return say((const uint8_t[]){0xC7, 0x01}, 2, reply);
    }
    if (d[1] != 2) return refuse(0x87, 0x12, reply);
    if (n != 3) return refuse(0x87, 0x13, reply);
    if (d[2] != 3) return refuse(0x87, 0x31, reply);
    if (u->phase != TACHO_PHASE_SESSION || pending == 0) return refuse(0x87, 0x22, reply);
    u->rate = pending;
    return 0;
}

static size_t on_transfer(unit *u, const uint8_t *store, const uint8_t *d, size_t n, ref_output reply)
{
    if (n < 2) return refuse(0x36, 0x13, reply);
    if (!ref_known(u->kind, d[1])) return refuse(0x36, 0x12, reply);
    bool dated = ref_activities(d[1]);
    if (n != (dated ? 6u : 2u)) return refuse(0x36, 0x13, reply);
    uint32_t day = dated ? ref_be32(d + 2) : 0;
    if (u->phase < TACHO_PHASE_GRANTED) return refuse(0x36, 0x22, reply);
    tacho_part a = ref_store_find(store, d[1], day);
    if (a.number) return refuse(0x36, 0xFA, reply);
    bool split = a.len - 2 > 252;
    u->phase = split ? TACHO_PHASE_SENDING : TACHO_PHASE_GRANTED;
    u->trep = d[1];
    u->day = day;
    u->last = 1;
    return send_part(store, a, 1, reply);
}

static size_t on_acknowledge(unit *u, const uint8_t *store, const uint8_t *d, size_t n, ref_output reply)
{
    if (n != 4) return refuse(0x83, 0x13, reply);
    if (d[1] != 0x76) return refuse(0x83, 0x31, reply);
    if (u->phase != TACHO_PHASE_SENDING) return refuse(0x83, 0x22, reply);
    tacho_part a = ref_store_find(store, u->trep, u->day);
    uint32_t code = ref_be16(d + 2);
    if (code == u->last) return send_part(store, a, code, reply);
    if (code == u->last + 1) {
        if (code > frames_of(a.len)) return refuse(0x83, 0x12, reply);
        u->last = code;
        return send_part(store, a, code, reply);
    }
    if (code != 0xFFFF) return refuse(0x83, 0x22, reply);
    u->phase = TACHO_PHASE_GRANTED;
    return 0;
}

static size_t hear(unit *u, const uint8_t *store, const uint8_t *d, size_t n, ref_output reply)
{
    static const uint8_t upload[10] = {0x35, 0, 0, 0, 0, 0, 0xFF, 0xFF, 0xFF, 0xFF};
    uint8_t pending = u->pending;
    u->pending = 0;
    switch (d[0]) {
    case 0x10:
        if (n < 2) return refuse(0x10, 0x13, reply);
        if (d[1] != 0x81) return refuse(0x10, 0x12, reply);
        if (n != 2) return refuse(0x10, 0x13, reply);
        u->phase = TACHO_PHASE_SESSION;
        return say((const uint8_t[]){0x50, 0x81}, 2, reply);
    case 0x87: return on_rate(u, d, n, pending, reply);
    case 0x35:
        if (n != 10) return refuse(0x35, 0x13, reply);
        if (memcmp(d, upload, 10)) return refuse(0x35, 0x31, reply);
        if (u->phase < TACHO_PHASE_SESSION) return refuse(0x35, 0x22, reply);
        u->phase = TACHO_PHASE_GRANTED;
        return say((const uint8_t[]){0x75, 0x00, 0xFF}, 3, reply);
    case 0x36: return on_transfer(u, store, d, n, reply);
    case 0x37:
        if (n != 1) return refuse(0x37, 0x13, reply);
        if (u->phase < TACHO_PHASE_GRANTED) return refuse(0x37, 0x22, reply);
        u->phase = TACHO_PHASE_SESSION;
        return say((const uint8_t[]){0x77}, 1, reply);
    case 0x82:
        if (n != 1) return refuse(0x82, 0x13, reply);
        u->phase = TACHO_PHASE_CLOSED;
        u->rate = 1;
        return say((const uint8_t[]){0xC2}, 1, reply);
    case 0x83: return on_acknowledge(u, store, d, n, reply);
    default: return refuse(d[0], 0x11, reply);
    }
}

tacho_written ref_unit_step_at(uint8_t unit_address, uint8_t tool_address, uint8_t *state, size_t state_len, const uint8_t *store,
                               size_t store_len, const uint8_t *frame, size_t frame_len, uint8_t *reply, size_t reply_len)
{
    unit u;
    ref_output out = {unit_address, tool_address, reply};
    if (unit_address == tool_address) return (tacho_written){2, 0};
    uint8_t number = ref_store_check(store, store_len);
    if (number) return (tacho_written){number, 0};
    if (!unpack(state, state_len, &u) || !possible(&u, store)) return (tacho_written){11, 0};
    if (reply_len < 260) return (tacho_written){4, 0};
    tacho_part d = ref_frame_data_at(unit_address, tool_address, frame, frame_len, false);
    if (d.number) return (tacho_written){d.number, 0};
    size_t len = 0;
    if (frame[0] == 0x81) {
        u.phase = TACHO_PHASE_STARTED;
        u.rate = 1;
        u.pending = 0;
        len = say((const uint8_t[]){0xC1, 0xEA, 0x8F}, 3, out);
    } else if (u.phase != TACHO_PHASE_CLOSED) {
        len = hear(&u, store, frame + d.start, d.len, out);
    }
    pack(&u, state);
    return (tacho_written){0, len};
}

tacho_written ref_unit_step(uint8_t *state, size_t state_len, const uint8_t *store, size_t store_len, const uint8_t *frame,
                            size_t frame_len, uint8_t *reply, size_t reply_len)
{
    return ref_unit_step_at(REF_UNIT_ADDRESS, REF_TOOL_ADDRESS, state, state_len, store, store_len, frame, frame_len, reply, reply_len);
}

REF_READER(ref_unit_kind, unit, kind)
REF_READER(ref_unit_rate, unit, rate)
REF_READER(ref_unit_phase, unit, phase)

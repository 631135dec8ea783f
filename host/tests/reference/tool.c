/* Document 01, The tool; document 02, Req 03 and Req 05. */
#include "reference.h"
#include "tables.h"

#include <string.h>

typedef struct {
    uint8_t request, outcome, code, trep;
    uint32_t day; /* the second as it was given */
    uint8_t sendings;
    uint32_t expected, held;
} tool;

uint8_t ref_tool_fresh(uint8_t *state, size_t len)
{
    if (len < TACHO_TOOL_STATE) return 4;
    memset(state, 0, TACHO_TOOL_STATE);
    return 0;
}

static bool unpack(const uint8_t *s, size_t len, tool *t)
{
    if (len != TACHO_TOOL_STATE || s[TACHO_TOOL_AT_REQUEST] > TACHO_REQUEST_TRANSFER
        || s[TACHO_TOOL_AT_OUTCOME] > TACHO_OUTCOME_REFUSED)
        return false;
    *t = (tool){s[TACHO_TOOL_AT_REQUEST], s[TACHO_TOOL_AT_OUTCOME], s[TACHO_TOOL_AT_CODE], s[TACHO_TOOL_AT_TREP],
                ref_be32(s + TACHO_TOOL_AT_DAY), s[TACHO_TOOL_AT_SENDINGS], ref_be16(s + TACHO_TOOL_AT_EXPECTED),
                ref_be32(s + TACHO_TOOL_AT_HELD)};
    return t->outcome == TACHO_OUTCOME_REFUSED || t->code == 0;
}

static void pack(const tool *t, uint8_t *s)
{
    uint8_t b[TACHO_TOOL_STATE] = {
        [TACHO_TOOL_AT_REQUEST] = t->request,
        [TACHO_TOOL_AT_OUTCOME] = t->outcome,
        [TACHO_TOOL_AT_CODE] = t->code,
        [TACHO_TOOL_AT_TREP] = t->trep,
        [TACHO_TOOL_AT_DAY] = REF_FOUR_BYTES(t->day),
        [TACHO_TOOL_AT_SENDINGS] = t->sendings,
        [TACHO_TOOL_AT_EXPECTED] = REF_TWO_BYTES(t->expected),
        [TACHO_TOOL_AT_HELD] = REF_FOUR_BYTES(t->held),
    };
    memcpy(s, b, sizeof b);
}

/* A state that waits and may do so, with a room of that length. */
static bool waits(const tool *t, size_t room_len)
{
    if (t->outcome != TACHO_OUTCOME_WAITING || t->sendings < 1 || t->sendings > 3) return false;
    if (t->request != TACHO_REQUEST_TRANSFER) return true;
    if (!ref_named(t->trep, t->day) || t->expected == 0) return false;
    uint64_t held = t->expected == 1 ? 0 : 2 + 251 * (uint64_t)(t->expected - 1);
    return t->held == held && held <= room_len && held <= 60000;
}

static size_t send_start(ref_output out)
{
    uint8_t start[5] = {0x81, out.unit, out.tool, 0x81};
    start[4] = ref_checksum(start, 4);
    memcpy(out.bytes, start, 5);
    return 5;
}

static size_t send_data(const uint8_t *data, size_t len, ref_output out)
{
    return ref_frame_write_at(out.unit, out.tool, data, len, false, out.bytes, 260).len;
}

static size_t send_frame(const tool *t, ref_output out)
{
    static const uint8_t upload[10] = {0x35, 0, 0, 0, 0, 0, 0xFF, 0xFF, 0xFF, 0xFF};
    uint8_t d[6] = {0x36, t->trep, REF_FOUR_BYTES(t->day)};
    uint8_t ack[4] = {0x83, 0x76, REF_TWO_BYTES(t->expected)};
    switch (t->request) {
    case TACHO_REQUEST_START: return send_start(out);
    case TACHO_REQUEST_SESSION: return send_data((const uint8_t[]){0x10, 0x81}, 2, out);
    case TACHO_REQUEST_UPLOAD: return send_data(upload, 10, out);
    case TACHO_REQUEST_EXIT: return send_data((const uint8_t[]){0x37}, 1, out);
    case TACHO_REQUEST_STOP: return send_data((const uint8_t[]){0x82}, 1, out);
    default:
        if (t->expected > 1) return send_data(ack, 4, out);
        return send_data(d, ref_activities(t->trep) ? 6 : 2, out);
    }
}

tacho_written ref_tool_begin_at(uint8_t unit_address, uint8_t tool_address, uint8_t *state, size_t state_len, uint8_t request, uint8_t trep,
                                uint32_t day, uint8_t *out, size_t out_len)
{
    tool t;
    bool transfer = request == TACHO_REQUEST_TRANSFER;
    if (unit_address == tool_address) return (tacho_written){2, 0};
    if (request > TACHO_REQUEST_TRANSFER || (transfer ? !ref_named(trep, day) : trep != 0 || day != 0))
        return (tacho_written){12, 0};
    if (!unpack(state, state_len, &t) || t.outcome == TACHO_OUTCOME_WAITING) return (tacho_written){11, 0};
    if (out_len < 260) return (tacho_written){4, 0};
    t = (tool){request, TACHO_OUTCOME_WAITING, 0, trep, day, 1, 1, 0};
    pack(&t, state);
    return (tacho_written){0, send_frame(&t, (ref_output){unit_address, tool_address, out})};
}

tacho_written ref_tool_begin(uint8_t *state, size_t state_len, uint8_t request, uint8_t trep, uint32_t day, uint8_t *out, size_t out_len)
{
    return ref_tool_begin_at(REF_UNIT_ADDRESS, REF_TOOL_ADDRESS, state, state_len, request, trep, day, out, out_len);
}

static size_t failed_wait(tool *t, ref_output out)
{
    if (t->sendings == 3) {
        t->outcome = TACHO_OUTCOME_NO_ANSWER;
        return 0;
    }
    t->sendings++;
    return send_frame(t, out);
}

/* New bytes, in two parts, behind those held; false where they pass the room or 60,000. */
static bool hold(tool *t, const uint8_t *a, size_t a_len, const uint8_t *b, size_t b_len, uint8_t *room, size_t room_len)
{
    size_t end = t->held + a_len + b_len;
    if (end > room_len || end > 60000) {
        t->outcome = TACHO_OUTCOME_NO_ROOM;
        return false;
    }
    if (a_len) memcpy(room + t->held, a, a_len);
    if (b_len) memcpy(room + t->held + a_len, b, b_len);
    t->held = (uint32_t)end;
    return true;
}

static size_t on_answer(tool *t, const uint8_t *d, size_t n, uint8_t *room, size_t room_len, ref_output out)
{
    if (n < 2 || d[0] != 0x76 || d[1] != t->trep) return 0;
    if (t->expected == 1 && n < 255) {
        if (hold(t, d, n, NULL, 0, room, room_len)) t->outcome = TACHO_OUTCOME_DONE;
        return 0;
    }
    if (n < 4 || ref_be16(d + 2) < t->expected) return 0;
    if (ref_be16(d + 2) > t->expected) return failed_wait(t, out);
    if (!hold(t, d, t->expected == 1 ? 2 : 0, d + 4, n - 4, room, room_len))
        return send_data((const uint8_t[]){0x83, 0x76, 0xFF, 0xFF}, 4, out);
    if (n < 255) {
        t->outcome = TACHO_OUTCOME_DONE;
        return 0;
    }
    t->expected++;
    t->sendings = 1;
    return send_frame(t, out);
}

static size_t on_data(tool *t, const uint8_t *d, size_t n, uint8_t *room, size_t room_len, ref_output out)
{
    static const uint8_t sids[5] = {0x81, 0x10, 0x35, 0x37, 0x82};
    static const uint8_t replies[5][3] = {{0xC1, 0xEA, 0x8F}, {0x50, 0x81}, {0x75, 0x00, 0xFF}, {0x77}, {0xC2}};
    static const size_t lengths[5] = {3, 2, 3, 1, 1};
    bool transfer = t->request == TACHO_REQUEST_TRANSFER;
    uint8_t sid = transfer ? (t->expected == 1 ? 0x36 : 0x83) : sids[t->request];
    if (n == 3 && d[0] == 0x7F && d[1] == sid) {
        if (d[2] == 0x78) return 0;
        t->outcome = TACHO_OUTCOME_REFUSED;
        t->code = d[2];
        return 0;
    }
    if (transfer) return on_answer(t, d, n, room, room_len, out);
    if (n == lengths[t->request] && memcmp(d, replies[t->request], n) == 0) t->outcome = TACHO_OUTCOME_DONE;
    return 0;
}

tacho_written ref_tool_arrived_at(uint8_t unit_address, uint8_t tool_address, uint8_t *state, size_t state_len, const uint8_t *frame,
                                  size_t frame_len, uint8_t *room, size_t room_len, uint8_t *out, size_t out_len)
{
    tool t;
    ref_output to = {unit_address, tool_address, out};
    if (unit_address == tool_address) return (tacho_written){2, 0};
    if (!unpack(state, state_len, &t) || !waits(&t, room_len)) return (tacho_written){11, 0};
    if (out_len < 260) return (tacho_written){4, 0};
    tacho_part d = ref_frame_data_at(unit_address, tool_address, frame, frame_len, true);
    size_t len = d.number ? failed_wait(&t, to) : on_data(&t, frame + d.start, d.len, room, room_len, to);
    pack(&t, state);
    return (tacho_written){0, len};
}

tacho_written ref_tool_arrived(uint8_t *state, size_t state_len, const uint8_t *frame, size_t frame_len, uint8_t *room, size_t room_len,
                               uint8_t *out, size_t out_len)
{
    return ref_tool_arrived_at(REF_UNIT_ADDRESS, REF_TOOL_ADDRESS, state, state_len, frame, frame_len, room, room_len, out, out_len);
}

tacho_written ref_tool_wait_ended_at(uint8_t unit_address, uint8_t tool_address, uint8_t *state, size_t state_len, const uint8_t *room,
                                     size_t room_len, uint8_t *out, size_t out_len)
{
    tool t;
    (void)room;
    if (unit_address == tool_address) return (tacho_written){2, 0};
    if (!unpack(state, state_len, &t) || !waits(&t, room_len)) return (tacho_written){11, 0};
    if (out_len < 260) return (tacho_written){4, 0};
    size_t len = failed_wait(&t, (ref_output){unit_address, tool_address, out});
    pack(&t, state);
    return (tacho_written){0, len};
}

tacho_written ref_tool_wait_ended(uint8_t *state, size_t state_len, const uint8_t *room, size_t room_len, uint8_t *out, size_t out_len)
{
    return ref_tool_wait_ended_at(REF_UNIT_ADDRESS, REF_TOOL_ADDRESS, state, state_len, room, room_len, out, out_len);
}

REF_READER(ref_tool_outcome, tool, outcome)
REF_READER(ref_tool_code, tool, code)
REF_READER(ref_tool_expected, tool, expected)
REF_READER(ref_tool_held, tool, held)

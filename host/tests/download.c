/*
 * One transfer between both ends over random lines, with the book of document 01 beside it (The line and the book):
 * after every event the tool waits or has ended as the book has, and holds 76, TREP and the data of the frames that the
 * book has taken; the rest of the room and of the tool's state is as document 01 says too. Activities are stored and
 * asked for by seconds of one day that are mostly not the same (document 02, Req 03). Both ends are given the lab's
 * addresses, EE and FB, or any two that differ; frames with others come too, and calls at two equal ones (Req 05).
 *
 *   download [TRANSFERS [SEED]]
 */
#include "readdressed.h"
#include "reference.h"
#include "support.h"

#include <stdio.h>
#include <stdlib.h>
#include <string.h>
#include <time.h>

enum { STORE = TACHO_STORE_MOST, ROOM = TACHO_ANSWER_MOST, STRINGS = 48, FRAMES = 240 };

typedef struct {
    uint8_t bytes[TACHO_FRAME_MOST + 4];
    size_t len;
} string;

typedef struct {
    string at[STRINGS];
    size_t count;
} queue;

/* The setting: the store, the answer and its frames 1 to q, the room and its bytes at the begin. */
static uint8_t store[STORE], room[ROOM], room_at_begin[ROOM], answer[ROOM];
static size_t store_len, answer_len, room_len, q;
static string frames[FRAMES + 1];
static uint8_t trep;
static uint32_t day; /* the second that the tool asks for */
static addresses at; /* given to both ends at every call */
static bool suffixless; /* at the lab's addresses: the calls without _at */

/* Both ends, the line, the book (p and f) and what is counted. */
static uint8_t unit[TACHO_UNIT_STATE], tool[TACHO_TOOL_STATE];
static queue to_unit, to_tool;
static size_t p, put_out, put_out_before, arrivals;
static unsigned f;
static unsigned long events, done, gave_up, elsewhere;

static void push(queue *line, const uint8_t *bytes, size_t len)
{
    if (len == 0) return;
    if (line->count == STRINGS) fail("the line of the test is full");
    memcpy(line->at[line->count].bytes, bytes, len);
    line->at[line->count++].len = len;
}

static void take(queue *line, size_t i)
{
    memmove(&line->at[i], &line->at[i + 1], (line->count - i - 1) * sizeof line->at[0]);
    line->count--;
}

/* The calls of both ends on the transfer's states. Addresses other than the transfer's need the call with _at. */

static bool plain(addresses a)
{
    return suffixless && same_addresses(a, at);
}

static tacho_written begin(addresses a, uint8_t request, uint8_t of, uint32_t second, uint8_t *out, size_t out_len)
{
    if (plain(a)) return tacho_tool_begin(tool, sizeof tool, request, of, second, out, out_len);
    return tacho_tool_begin_at(a.unit, a.tool, tool, sizeof tool, request, of, second, out, out_len);
}

static tacho_written arrived(addresses a, const string *s, uint8_t *out, size_t out_len)
{
    if (plain(a)) return tacho_tool_arrived(tool, sizeof tool, s->bytes, s->len, room, room_len, out, out_len);
    return tacho_tool_arrived_at(a.unit, a.tool, tool, sizeof tool, s->bytes, s->len, room, room_len, out, out_len);
}

static tacho_written wait_ended(addresses a, uint8_t *out, size_t out_len)
{
    if (plain(a)) return tacho_tool_wait_ended(tool, sizeof tool, room, room_len, out, out_len);
    return tacho_tool_wait_ended_at(a.unit, a.tool, tool, sizeof tool, room, room_len, out, out_len);
}

static tacho_written step(addresses a, const string *s, uint8_t *reply, size_t reply_len)
{
    if (plain(a)) return tacho_unit_step(unit, sizeof unit, store, store_len, s->bytes, s->len, reply, reply_len);
    return tacho_unit_step_at(a.unit, a.tool, unit, sizeof unit, store, store_len, s->bytes, s->len, reply, reply_len);
}

static void choose_addresses(void)
{
    uint32_t kind = random_below(4);
    at = kind < 2 ? LAB : kind == 2 ? (addresses){REF_UNIT_ADDRESS, 0xFB} : different_addresses();
    suffixless = kind == 0;
    elsewhere += !is_lab(at);
}

static void choose_answer(void)
{
    static const uint8_t treps[] = {0x31, 0x32, 0x33, 0x24, 0x35, 0x00};
    static const size_t lengths[] = {2, 254, 255, 256, 503, 504, 505, 1000, 3000};
    trep = treps[random_below(sizeof treps)];
    day = trep == 0x32 ? 86400 * (1 + random_below(9)) + random_below(86400) : 0;
    answer_len = random_below(40) ? lengths[random_below(9)] : 50000 + random_below(10001);
    random_bytes(answer, answer_len);
    answer[0] = 0x76;
    answer[1] = trep;
    q = ref_sub_messages(answer_len - 2).count;
    for (size_t k = 1; k <= q; k++)
        frames[k].len = ref_sub_message_at(at.unit, at.tool, answer + 2, answer_len - 2, trep, (uint16_t)k, frames[k].bytes,
                                           TACHO_FRAME_MOST).len;
}

/* The unit holds the answer, and where there is place another one that it may be sending at the begin. */
static void set_up_unit(void)
{
    static uint8_t other[600];
    uint8_t sending = 0x02; /* another kind's activities */
    bool place = answer_len + sizeof other <= 60000;
    memset(store, 0, sizeof store);
    random_bytes(other, sizeof other);
    other[0] = 0x76;
    other[1] = sending;
    if (place) ref_store_append(store, STORE, other, sizeof other, 0);
    uint32_t second = trep == 0x32 ? day - day % 86400 + random_below(86400) : 0;
    tacho_written w = ref_store_append(store, STORE, answer, answer_len, second);
    if (w.number) fail("the test's store refuses the answer by %u", w.number);
    store_len = w.len;
    tacho_unit_fresh(TACHO_KIND_GENERATION_2_VERSION_2, unit, sizeof unit);
    unit[TACHO_UNIT_AT_PHASE] = TACHO_PHASE_GRANTED;
    if (!place || random_below(2)) return;
    unit[TACHO_UNIT_AT_PHASE] = TACHO_PHASE_SENDING;
    unit[TACHO_UNIT_AT_TREP] = sending;
    second = random_below(86400);
    memcpy(unit + TACHO_UNIT_AT_DAY, (const uint8_t[]){REF_FOUR_BYTES(second)}, 4);
    memcpy(unit + TACHO_UNIT_AT_LAST, (const uint8_t[]){REF_TWO_BYTES(2)}, 2);
}

/* The tool has begun, its frame alone on the line, the book empty. The room may be no longer than the answer. */
static void set_up(void)
{
    uint8_t out[TACHO_FRAME_MOST];
    choose_addresses();
    choose_answer();
    set_up_unit();
    room_len = random_below(2) ? ROOM : answer_len;
    random_bytes(room, ROOM);
    memcpy(room_at_begin, room, ROOM);
    to_unit.count = to_tool.count = 0;
    p = put_out_before = arrivals = 0;
    f = 0;
    tacho_tool_fresh(tool, sizeof tool);
    tacho_written w = begin(at, TACHO_REQUEST_TRANSFER, trep, day, out, sizeof out);
    if (w.number) fail("the begin is refused by %u", w.number);
    push(&to_unit, out, w.len);
    put_out = w.len > 0;
}

static size_t outcome(void)
{
    return tacho_tool_outcome(tool, sizeof tool);
}

/* The book has ended. */
static bool ended(void)
{
    return p == q || f == 3;
}

/* The tool's outcome: done exactly at p = q, "no answer" exactly at f = 3, else it waits. */
static void check_outcome(void)
{
    size_t is = outcome();
    if ((is == TACHO_OUTCOME_DONE) != (p == q)) fail("the tool's outcome is %zu at frame %zu of %zu", is, p, q);
    if ((is == TACHO_OUTCOME_NO_ANSWER) != (f == 3)) fail("the tool's outcome is %zu after %u failed waits", is, f);
    if (!ended() && is != TACHO_OUTCOME_WAITING) fail("the tool's outcome is %zu, and the book has not ended", is);
}

/* The tool holds 76, TREP and the data of frames 1 to p; no byte behind those has changed, in the room or past it. */
static void check_held(void)
{
    size_t held = tacho_tool_held(tool, sizeof tool);
    size_t wanted = p == 0 ? 0 : p == q ? answer_len : 2 + 251 * p;
    if (held != wanted) fail("the tool holds %zu bytes, wanted %zu with %zu of %zu frames taken", held, wanted, p, q);
    if (memcmp(room, answer, held)) fail("the %zu bytes held are not those of the answer", held);
    if (memcmp(room + held, room_at_begin + held, ROOM - held)) fail("a byte behind the %zu held has changed", held);
}

/* The rest of the state: the request as begun, the frames put out since the step forward with which the wait began, the
 * number that the wait is for. A tool that is done keeps the last two as its last wait had them. */
static void check_state(void)
{
    uint8_t begun_day[4] = {REF_FOUR_BYTES(day)};
    size_t expected = tacho_tool_expected(tool, sizeof tool), code = tacho_tool_code(tool, sizeof tool);
    size_t counted = tool[TACHO_TOOL_AT_SENDINGS], sendings = put_out - put_out_before;
    if (tool[TACHO_TOOL_AT_REQUEST] != TACHO_REQUEST_TRANSFER) fail("the request has changed");
    if (tool[TACHO_TOOL_AT_TREP] != trep) fail("the TREP has changed");
    if (memcmp(tool + TACHO_TOOL_AT_DAY, begun_day, sizeof begun_day)) fail("the day has changed");
    if (code != 0) fail("the tool has a wire code, %02zX, and was not refused", code);
    if (counted != sendings) fail("the tool counts %zu sendings, %zu frames were put out", counted, sendings);
    if (expected != (p < q ? p + 1 : q)) fail("number %zu is expected, %zu of %zu frames are taken", expected, p, q);
}

/* What document 01 says after every list of events. */
static void check(void)
{
    events++;
    check_outcome();
    check_held();
    check_state();
    if (put_out > 3 * q) fail("%zu frames put out for %zu", put_out, q);
}

static void book_failed(void)
{
    if (!ended()) f++;
}

static void book_arrival(const string *s)
{
    if (ended()) return;
    const string *next = &frames[p + 1];
    if (s->len == next->len && memcmp(s->bytes, next->bytes, s->len) == 0) {
        p++;
        f = 0;
        /* the last frame begins no wait */
        if (p < q) put_out_before = put_out;
    } else if (ref_frame_check_at(at.unit, at.tool, s->bytes, s->len, true)) {
        book_failed();
    }
}

static void at_unit(size_t reply_len)
{
    uint8_t reply[TACHO_FRAME_MOST];
    if (to_unit.count == 0) return;
    string s = to_unit.at[0];
    take(&to_unit, 0);
    tacho_written w = step(at, &s, reply, reply_len);
    push(&to_tool, reply, w.number ? 0 : w.len);
}

/* What a call of the tool puts out joins the queue to the unit; behind an end the call is out of turn. */
static void from_tool(tacho_written w, const uint8_t *out, bool was_ended)
{
    unsigned wanted = was_ended ? TACHO_OUT_OF_TURN : TACHO_OK;
    if (w.number != wanted) fail("a call of the tool gave %u, wanted %u", w.number, wanted);
    if (w.len) put_out++;
    push(&to_unit, out, w.len);
}

static void at_tool(void)
{
    uint8_t out[TACHO_FRAME_MOST];
    bool was_ended = ended();
    if (to_tool.count == 0) return;
    string s = to_tool.at[0];
    take(&to_tool, 0);
    arrivals++;
    book_arrival(&s);
    from_tool(arrived(at, &s, out, sizeof out), out, was_ended);
}

static void wait_ends(void)
{
    uint8_t out[TACHO_FRAME_MOST];
    bool was_ended = ended();
    book_failed();
    from_tool(wait_ended(at, out, sizeof out), out, was_ended);
}

/* Too short an output refuses a begin in every state; a tool that waits says first that it is out of turn. The request
 * is another one than the test's, so that check() sees where a refused begin writes it. */
static void begin_refused(void)
{
    uint8_t out[TACHO_FRAME_MOST], request = random_below(2) ? TACHO_REQUEST_TRANSFER : TACHO_REQUEST_STOP;
    uint8_t other = request == TACHO_REQUEST_TRANSFER ? 0x01 : 0;
    unsigned wanted = ended() ? TACHO_BUFFER_SHORT : TACHO_OUT_OF_TURN;
    tacho_written w = begin(at, request, other, 0, out, TACHO_FRAME_MOST - 1);
    if (w.number != wanted) fail("a begin with a short output gave %u, wanted %u", w.number, wanted);
}

/* Two equal addresses refuse every call of both ends, in every state: neither states nor output change, and no sending is counted. */
static void equal_refused(void)
{
    uint8_t out[TACHO_FRAME_MOST], tool_before[sizeof tool], unit_before[sizeof unit];
    memset(out, 0xA5, sizeof out);
    addresses both = {at.unit, at.unit};
    const string *s = to_tool.count ? &to_tool.at[0] : &frames[1];
    memcpy(tool_before, tool, sizeof tool);
    memcpy(unit_before, unit, sizeof unit);
    const tacho_written gave[] = {
        begin(both, TACHO_REQUEST_STOP, 0, 0, out, sizeof out), arrived(both, s, out, sizeof out), wait_ended(both, out, sizeof out),
        step(both, to_unit.count ? &to_unit.at[0] : s, out, sizeof out),
    };
    for (size_t k = 0; k < sizeof gave / sizeof *gave; k++)
        if (gave[k].number != TACHO_FORMAT_OR_ADDRESS || gave[k].len) fail("call %zu at two equal addresses gave %u", k, gave[k].number);
    if (memcmp(tool_before, tool, sizeof tool) || memcmp(unit_before, unit, sizeof unit))
        fail("a call at two equal addresses changed a state");
    for (size_t i = 0; i < sizeof out; i++)
        if (out[i] != 0xA5) fail("a call at two equal addresses wrote byte %zu of its output", i);
}

/* The string becomes one that is refused: bytes change or are cut off, or it gets other addresses and a checksum that is right. */
static void spoil(string *s, bool at_tool_end)
{
    do {
        if (random_below(4) == 0) {
            readdress(s->bytes, s->len, other_addresses(at), at_tool_end);
            continue;
        }
        s->bytes[random_below((uint32_t)s->len)] ^= (uint8_t)(1 + random_below(255));
        if (random_below(4) == 0 && s->len > 1) s->len--;
    } while (ref_frame_check_at(at.unit, at.tool, s->bytes, s->len, at_tool_end) == 0);
}

static void line_changes(void)
{
    bool tool_end = random_below(2);
    queue *line = tool_end ? &to_tool : &to_unit;
    if (line->count == 0) return;
    size_t i = random_below((uint32_t)line->count);
    switch (random_below(3)) {
    case 0: take(line, i); break;
    case 1:
        if (line->count > STRINGS - 8) return;
        memmove(&line->at[i + 1], &line->at[i], (line->count - i) * sizeof line->at[0]);
        line->count++;
        break;
    default: spoil(&line->at[i], tool_end); break;
    }
}

static void bad_line(void)
{
    uint32_t badness = random_below(12);
    set_up();
    check();
    for (size_t i = 0; i < 40 * q + 200 && (!ended() || random_below(20)); i++) {
        uint32_t event = random_below(24);
        if (to_unit.count + to_tool.count == 0 || (event < badness && random_below(6) == 0)) wait_ends();
        else if (event < badness) line_changes();
        else if (event == 23) random_below(2) ? begin_refused() : equal_refused();
        else if (event % 2) at_unit(random_below(30) ? TACHO_FRAME_MOST : random_below(TACHO_FRAME_MOST));
        else at_tool();
        check();
    }
    done += outcome() == TACHO_OUTCOME_DONE;
    gave_up += outcome() == TACHO_OUTCOME_NO_ANSWER;
}

/* Done comes at arrival q: check() lets no tool be done before, and this loop none wait longer. */
static void clean_line(void)
{
    set_up();
    check();
    while (outcome() == TACHO_OUTCOME_WAITING) {
        if (to_unit.count + to_tool.count == 0) fail("a clean line is empty before the end");
        if (arrivals == q) fail("not done at arrival %zu", q);
        if (random_below(2)) at_unit(TACHO_FRAME_MOST);
        else at_tool();
        check();
    }
    if (outcome() != TACHO_OUTCOME_DONE) fail("the tool's outcome on a clean line is %zu", outcome());
}

int main(int argc, char **argv)
{
    unsigned long transfers = argc > 1 ? strtoul(argv[1], NULL, 10) : 6000;
    uint64_t seed = argc > 2 ? strtoull(argv[2], NULL, 10) : (uint64_t)time(NULL);
    random_seed(seed);
    printf("download: seed %llu\n", (unsigned long long)seed);
    fflush(stdout); /* it stays readable where a sanitizer ends the test */
    for (unsigned long i = 0; i < transfers; i++) {
        bad_line();
        clean_line();
    }
    if (done == 0 || gave_up == 0) fail("%lu transfers done and %lu given up: the lines are all alike", done, gave_up);
    if (elsewhere == 0 || elsewhere == 2 * transfers) fail("%lu of %lu transfers are not at the lab's addresses", elsewhere, 2 * transfers);
    printf("download: %lu transfers over bad lines (%lu done, %lu given up), %lu over clean ones, %lu of both not at the lab's addresses, "
           "%lu events as the book says\n", transfers, done, gave_up, transfers, elsewhere, events);
    return 0;
}

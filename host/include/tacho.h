/*
 * tacho.h: the tachograph download protocol (Appendix 7 of Regulation (EU) 2016/799) for host programs in C11 and C++.
 *
 * A teaching vehicle unit, a download tool, frames, splitting, a bench store and a record array reader. Every call ends and stays inside the
 * memory lent to it, for any bytes, lengths and states: nothing has to be checked before a call.
 *
 * A slice is a pointer and then its length; a length of 0 takes any pointer, NULL too. What is asked of the caller: a pointer has as
 * many bytes behind it as its length says, and slices lent to one call do not overlap. A call keeps nothing of what it is lent, so
 * calls on different states and buffers may run at the same time.
 * `number` is 0 where nothing is refused; else it is one of the numbers below, the call has written nothing, and the other fields of its
 * result are zero, but for the position of a tacho_fault. Numbers in bytes stand most significant byte first.
 */
#ifndef TACHO_H
#define TACHO_H

#include <stdbool.h>
#include <stddef.h>
#include <stdint.h>

/* The library is compiled for hosts whose size_t has 64 bits. */
#ifdef __cplusplus
static_assert(sizeof(size_t) == 8, "tacho.h is for 64-bit hosts");
extern "C" {
#else
_Static_assert(sizeof(size_t) == 8, "tacho.h is for 64-bit hosts");
#endif

/* The version of this interface: the first number grows where a name, a layout or what was given for an input that was taken changes, the
 * second where calls are added or take what was refused before. */
#define TACHO_VERSION_MAJOR 2
#define TACHO_VERSION_MINOR 2
#define TACHO_VERSION "2.2"

/* Numbers: why a call is refused. No call gives 5; 13 to 17 say what makes bytes no bench store. */
enum {
    TACHO_OK = 0,
    TACHO_FRAME_COUNT = 1,       /* a frame with a wrong count of bytes; data to write that is empty or over 255 bytes */
    TACHO_FORMAT_OR_ADDRESS = 2, /* wrong first byte, or not from the other end to this one; two equal addresses given */
    TACHO_CHECKSUM = 3,          /* wrong checksum */
    TACHO_BUFFER_SHORT = 4,      /* the lent output or store buffer is too short */
    TACHO_NOT_HELD = 6,          /* the store does not hold the answer */
    TACHO_ALREADY_HELD = 7,      /* the store holds that answer already */
    TACHO_OVER_BOUND = 8,        /* over 64 answers, 60,000 stream bytes or 59,998 data bytes */
    TACHO_NOT_ARRAYS = 9,        /* the body is no run of record arrays */
    TACHO_NO_SUCH = 10,          /* no such array, record or sub message */
    TACHO_OUT_OF_TURN = 11,      /* impossible state, or a call out of turn */
    TACHO_NOT_IN_TABLE = 12,     /* the answer or request is not in the table of transfer types, or has a day outside activities */
    TACHO_STORE_SHORT = 13,      /* the buffer is shorter than its header says */
    TACHO_STORE_BOUNDS = 14,     /* too many answers, or a stream over its bound */
    TACHO_STORE_ENTRY = 15,      /* an entry's offset or length is wrong */
    TACHO_STORE_ANSWER = 16,     /* an answer's first two bytes are wrong, or its day: no multiple of 86,400, or not 0 outside activities */
    TACHO_STORE_TWICE = 17       /* the same TREP and day twice */
};

/* The lab's addresses of the two ends: those of the calls on frames that are given none. */
enum { TACHO_UNIT_ADDRESS = 0xEE, TACHO_TOOL_ADDRESS = 0xF0 };

/* Kinds of unit. */
enum { TACHO_KIND_GENERATION_1 = 0, TACHO_KIND_GENERATION_2_VERSION_1 = 1, TACHO_KIND_GENERATION_2_VERSION_2 = 2 };

/* Phases of a unit: tacho_unit_phase. */
enum { TACHO_PHASE_CLOSED = 0, TACHO_PHASE_STARTED = 1, TACHO_PHASE_SESSION = 2, TACHO_PHASE_GRANTED = 3, TACHO_PHASE_SENDING = 4 };

/* Requests of the tool: tacho_tool_begin. */
enum {
    TACHO_REQUEST_START = 0,
    TACHO_REQUEST_SESSION = 1,
    TACHO_REQUEST_UPLOAD = 2,
    TACHO_REQUEST_EXIT = 3,
    TACHO_REQUEST_STOP = 4,
    TACHO_REQUEST_TRANSFER = 5
};

/* How the tool's request stands: tacho_tool_outcome. */
enum {
    TACHO_OUTCOME_FRESH = 0,
    TACHO_OUTCOME_WAITING = 1,
    TACHO_OUTCOME_DONE = 2,
    TACHO_OUTCOME_NO_ANSWER = 3, /* three sendings without a step forward */
    TACHO_OUTCOME_NO_ROOM = 4,   /* the answer does not fit the room */
    TACHO_OUTCOME_REFUSED = 5    /* ended by a wire code: tacho_tool_code */
};

/* Sizes in bytes. The day in a packed state is the second that was asked for, as it came. */
enum {
    /* a packed unit: kind, rate, pending rate (0 none), phase, TREP, day (4), last number sent (2); the last seven zero unless sending */
    TACHO_UNIT_STATE = 11,
    /* a packed tool: request, outcome, wire code (0 unless refused), TREP, day (4), sendings, expected (2), bytes held (4) */
    TACHO_TOOL_STATE = 15,
    TACHO_FRAME_MOST = 260,    /* the longest frame: outputs of the unit and the tool need as much */
    TACHO_ANSWER_MOST = 60000, /* the longest answer with its 76 and TREP: a room of as much never runs short */
    TACHO_STORE_MOST = 60516   /* the longest bench store: 64 answers and 60,000 bytes of stream */
};

/* Places of the fields in a packed unit and a packed tool; of a longer field, its first byte. A program that only reads
 * a state uses the readers below: the places are for a host that builds states, or keeps them in a form of its own.
 * They are binding, as the sizes are. */
enum {
    TACHO_UNIT_AT_KIND = 0,
    TACHO_UNIT_AT_RATE = 1,
    TACHO_UNIT_AT_PENDING = 2,
    TACHO_UNIT_AT_PHASE = 3,
    TACHO_UNIT_AT_TREP = 4,
    TACHO_UNIT_AT_DAY = 5,
    TACHO_UNIT_AT_LAST = 9
};
enum {
    TACHO_TOOL_AT_REQUEST = 0,
    TACHO_TOOL_AT_OUTCOME = 1,
    TACHO_TOOL_AT_CODE = 2,
    TACHO_TOOL_AT_TREP = 3,
    TACHO_TOOL_AT_DAY = 4,
    TACHO_TOOL_AT_SENDINGS = 8,
    TACHO_TOOL_AT_EXPECTED = 9,
    TACHO_TOOL_AT_HELD = 11
};

/* What a reader gives for bytes that are no state. */
#define TACHO_NO_STATE SIZE_MAX

typedef struct { uint8_t number; size_t len; } tacho_written;            /* len bytes at the front of the output */
typedef struct { uint8_t number; size_t start; size_t len; } tacho_part; /* that part of the bytes handed in */
typedef struct { uint8_t number; size_t count; } tacho_counted;
typedef struct { uint8_t number; size_t position; } tacho_fault;         /* number 0: position 0 */
typedef struct { uint8_t number; uint8_t trep; uint32_t day; size_t start; size_t len; } tacho_held;
typedef struct { uint8_t number; uint8_t type; uint16_t size; uint16_t count; size_t start; size_t len; } tacho_array;

/* Frames. at_tool: judged at the tool (true) or at the unit (false); to_tool: written to the tool or to the unit. */

/* The sum of the bytes, modulo 256: the checksum of a frame is that of all bytes before it. */
uint8_t tacho_checksum(const uint8_t *bytes, size_t bytes_len);

/* 0 for a good frame, else 1, 2 or 3. */
uint8_t tacho_frame_check(const uint8_t *frame, size_t frame_len, bool at_tool);

/* Of the bytes received so far, the length of the frame at the front, which may not have come whole yet; 0 while more bytes are needed to
 * tell. A first byte other than 80 and 81 begins no frame: 1, that byte alone. */
size_t tacho_frame_length(const uint8_t *received, size_t received_len);

/* The data of a good frame, SID first; of the five-byte start its SID. Refused by 1, 2, 3. */
tacho_part tacho_frame_data(const uint8_t *frame, size_t frame_len, bool at_tool);

/* Writes the frame with this data. Refused by 1 (no data, or over 255 bytes), 4. */
tacho_written tacho_frame_write(const uint8_t *data, size_t data_len, bool to_tool, uint8_t *out, size_t out_len);

/* Splitting: data is an answer without its 76 and TREP. */

/* How many frames the answer takes. Refused by 8. */
tacho_counted tacho_sub_messages(size_t data_len);

/* Writes sub message `number`, from 1, as a frame to the tool; an unsplit answer is its number 1. Refused by 8, 10, 4. */
tacho_written tacho_sub_message(const uint8_t *data, size_t data_len, uint8_t trep, uint16_t number, uint8_t *out, size_t out_len);

/* The bench store: an answer begins 76 and its TREP. A buffer whose first four bytes are zero is an empty store.
 * Activities (TREP 02, 22, 32) are of a day, which a call takes as any second of the day, in seconds since 1970: 86,399 is the first day's
 * last second, 86,400 is of the next day. The store keeps the day's first second, a multiple of 86,400. All other answers have day 0. */

/* What makes the buffer no store, and where: number 0 for an unbroken store at its front. The checks run in the order of the numbers, each
 * over all entries, from the first, before the next. Entries and answers count from zero. The position is
 *   13  the header's count of answers; 0 for a buffer too short for its header
 *   14  the header's count of answers
 *   15  the first entry whose offset is not the sum of the lengths before it, whose length is under 2, or whose end is past the stream;
 *       the count of answers where they end before the stream does
 *   16  the first answer that does not begin 76 and a listed TREP, or whose day is no multiple of 86,400, or not 0 outside activities
 *   17  the first answer with the TREP and day of an earlier one */
tacho_fault tacho_store_fault(const uint8_t *store, size_t store_len);

/* Its number: 0 for an unbroken store at the front of the buffer, else 13 to 17. */
uint8_t tacho_store_check(const uint8_t *store, size_t store_len);

/* The answer, as part of the buffer; day: any second of the day for activities, else 0. Refused by 13 to 17, 6 (unlisted names too). */
tacho_part tacho_store_lookup(const uint8_t *store, size_t store_len, uint8_t trep, uint32_t day);

/* The stream (DDP_034): all answers back to back. Refused by 13 to 17. */
tacho_part tacho_store_stream(const uint8_t *store, size_t store_len);

/* How many answers the store holds. Refused by 13 to 17. */
tacho_counted tacho_store_count(const uint8_t *store, size_t store_len);

/* Answer k, from zero: its TREP, the first second of its day, and where it lies in the buffer. Refused by 13 to 17, 6 (no more than k
 * answers). */
tacho_held tacho_store_answer(const uint8_t *store, size_t store_len, size_t k);

/* Puts the answer last; store is the whole buffer, len the store's new length, bytes behind it stay. day: any second of the day for
 * activities, whose first second the store keeps; else 0. Refused by 13 to 17, 12, 7 (held under any second of the day), 8, 4. */
tacho_written tacho_store_append(uint8_t *store, size_t store_len, const uint8_t *answer, size_t answer_len, uint32_t day);

/* Record arrays (generation 2): body is an answer without its 76 and TREP; arrays and records count from zero. */

/* How many arrays. Refused by 9. */
tacho_counted tacho_array_count(const uint8_t *body, size_t body_len);

/* One array: record type, record size, number of records, and where its records lie. Refused by 9, 10. */
tacho_array tacho_array_at(const uint8_t *body, size_t body_len, size_t array);

/* One record, as part of the body. Refused by 9, 10. */
tacho_part tacho_record_at(const uint8_t *body, size_t body_len, size_t array, size_t record);

/* The unit. state: exactly TACHO_UNIT_STATE bytes for a step; other lengths and bytes that are no state are 11. */

/* Writes the state of a fresh unit: closed, rate 1. Refused by 11 (kind), 4. Changes only the first TACHO_UNIT_STATE bytes. */
uint8_t tacho_unit_fresh(uint8_t kind, uint8_t *state, size_t state_len);

/* The unit hears a frame: changes the state, and writes the reply, len 0 for silence. Refused by 13 to 17 (the store), 11, 4 (reply under
 * 260), 1, 2, 3. */
tacho_written tacho_unit_step(uint8_t *state, size_t state_len, const uint8_t *store, size_t store_len, const uint8_t *frame,
                              size_t frame_len, uint8_t *reply, size_t reply_len);

/* Kind, rate and phase of a unit as its bytes have them, a rate of 1 to 5 in a possible state; TACHO_NO_STATE for bytes that are no state. */
size_t tacho_unit_kind(const uint8_t *state, size_t state_len);
size_t tacho_unit_rate(const uint8_t *state, size_t state_len);
size_t tacho_unit_phase(const uint8_t *state, size_t state_len);

/* The tool. state: exactly TACHO_TOOL_STATE bytes; len is that of the frame to send, 0 for none. */

/* Writes the state of a fresh tool. Refused by 4. Changes only the first TACHO_TOOL_STATE bytes. */
uint8_t tacho_tool_fresh(uint8_t *state, size_t state_len);

/* Begins a request; trep and day are 0 but for a transfer. day: any second of the day for activities, which is sent as it is; else 0.
 * Refused by 12, 11 (already waiting), 4 (out under 260). */
tacho_written tacho_tool_begin(uint8_t *state, size_t state_len, uint8_t request, uint8_t trep, uint32_t day, uint8_t *out,
                               size_t out_len);

/* A frame arrived, good or not: changes the state, the room (the bytes of the answer, behind those held) and the output.
 * Refused by 11 (not waiting, or an impossible state), 4 (out under 260). */
tacho_written tacho_tool_arrived(uint8_t *state, size_t state_len, const uint8_t *frame, size_t frame_len, uint8_t *room,
                                 size_t room_len, uint8_t *out, size_t out_len);

/* The wait for a frame ended: the frame is sent again, or the request ends. Refused by 11, 4. */
tacho_written tacho_tool_wait_ended(uint8_t *state, size_t state_len, const uint8_t *room, size_t room_len, uint8_t *out, size_t out_len);

/* How the request stands, the wire code that ended it (0 for none), the sub message expected and the bytes of the answer in the room;
 * TACHO_NO_STATE for bytes that are no state. */
size_t tacho_tool_outcome(const uint8_t *state, size_t state_len);
size_t tacho_tool_code(const uint8_t *state, size_t state_len);
size_t tacho_tool_expected(const uint8_t *state, size_t state_len);
size_t tacho_tool_held(const uint8_t *state, size_t state_len);

/* The calls at given addresses: each call that judges or writes a frame, with two parameters more, the first two. `unit` is the unit's
 * address and `tool` the tool's, each any byte, whichever end calls: a frame to the unit begins 80 unit tool, one to the tool 80 tool unit,
 * and the start is 81 unit tool 81 and its checksum. Packed states hold no addresses, so both ends must be given the same two at every
 * call of one transfer. Two equal ones are refused by 2 before any other check. The parameters behind them, and all else, are those of the
 * call without _at, which is this one at TACHO_UNIT_ADDRESS and TACHO_TOOL_ADDRESS. */

/* 0 for a good frame between these two, else 2 (equal addresses), 1, 2 or 3. */
uint8_t tacho_frame_check_at(uint8_t unit, uint8_t tool, const uint8_t *frame, size_t frame_len, bool at_tool);

/* The data of a good frame between these two. Refused by 2 (equal addresses), 1, 2, 3. */
tacho_part tacho_frame_data_at(uint8_t unit, uint8_t tool, const uint8_t *frame, size_t frame_len, bool at_tool);

/* Writes the frame with this data and these addresses. Refused by 2 (equal addresses), 1, 4. */
tacho_written tacho_frame_write_at(uint8_t unit, uint8_t tool, const uint8_t *data, size_t data_len, bool to_tool, uint8_t *out,
                                   size_t out_len);

/* Writes sub message `number` as a frame from this unit to this tool. Refused by 2 (equal addresses), 8, 10, 4. */
tacho_written tacho_sub_message_at(uint8_t unit, uint8_t tool, const uint8_t *data, size_t data_len, uint8_t trep, uint16_t number,
                                   uint8_t *out, size_t out_len);

/* The unit with this address hears a frame, and replies to this tool. Refused by 2 (equal addresses), 13 to 17, 11, 4, 1, 2, 3. */
tacho_written tacho_unit_step_at(uint8_t unit, uint8_t tool, uint8_t *state, size_t state_len, const uint8_t *store, size_t store_len,
                                 const uint8_t *frame, size_t frame_len, uint8_t *reply, size_t reply_len);

/* Begins a request to this unit. Refused by 2 (equal addresses), 12, 11, 4. */
tacho_written tacho_tool_begin_at(uint8_t unit, uint8_t tool, uint8_t *state, size_t state_len, uint8_t request, uint8_t trep,
                                  uint32_t day, uint8_t *out, size_t out_len);

/* A frame arrived at the tool with this address. One with other addresses is a frame that is not good: a wait that failed. Two equal
 * addresses refuse the call: no wait has failed, and no sending is counted. Refused by 2 (equal addresses), 11, 4. */
tacho_written tacho_tool_arrived_at(uint8_t unit, uint8_t tool, uint8_t *state, size_t state_len, const uint8_t *frame, size_t frame_len,
                                    uint8_t *room, size_t room_len, uint8_t *out, size_t out_len);

/* The wait for a frame from this unit ended. Two equal addresses refuse the call here too: no wait has failed. Refused by 2 (equal
 * addresses), 11, 4. */
tacho_written tacho_tool_wait_ended_at(uint8_t unit, uint8_t tool, uint8_t *state, size_t state_len, const uint8_t *room, size_t room_len,
                                       uint8_t *out, size_t out_len);

/* In words: a number of the list above, a wire code, the transfer type of a TREP. Never NULL. */
const char *tacho_number_text(uint8_t number);
const char *tacho_code_text(uint8_t code);
const char *tacho_type_text(uint8_t trep);

#ifdef __cplusplus
}
#endif

#endif

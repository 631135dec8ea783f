/*
 * A plain C implementation of documents 01 and 02, written from them alone, for comparison in tests and benchmarks.
 * The calls are those of tacho.h under another prefix, and have their types; places in a packed state are those that
 * tacho.h names.
 */
#ifndef REFERENCE_H
#define REFERENCE_H

#include "tacho.h"

/* A number as its two or four bytes in an initializer, most significant first. */
#define REF_TWO_BYTES(n) (uint8_t)((n) >> 8), (uint8_t)(n)
#define REF_FOUR_BYTES(n) (uint8_t)((n) >> 24), (uint8_t)((n) >> 16), REF_TWO_BYTES(n)

/* Document 01, Frames: where the data of a frame that begins 80 stands, its SID first; the lab's addresses. */
enum { REF_FRAME_DATA = 4 };
enum { REF_UNIT_ADDRESS = 0xEE, REF_TOOL_ADDRESS = 0xF0 };

/* Document 01, Bench store: the places of the header's and an entry's fields, and the size of both. */
enum {
    REF_STORE_AT_COUNT = 0,
    REF_STORE_AT_STREAM_LEN = 2,
    REF_STORE_HEADER = 4,
    REF_ENTRY_AT_DAY = 0,
    REF_ENTRY_AT_OFFSET = 4,
    REF_ENTRY_AT_LEN = 6,
    REF_STORE_ENTRY = 8
};

#define REF_CALL(name) __typeof__(tacho_##name) ref_##name
REF_CALL(checksum);
REF_CALL(frame_check);
REF_CALL(frame_check_at);
REF_CALL(frame_length);
REF_CALL(frame_data);
REF_CALL(frame_data_at);
REF_CALL(frame_write);
REF_CALL(frame_write_at);
REF_CALL(sub_messages);
REF_CALL(sub_message);
REF_CALL(sub_message_at);
REF_CALL(store_fault);
REF_CALL(store_check);
REF_CALL(store_lookup);
REF_CALL(store_stream);
REF_CALL(store_count);
REF_CALL(store_answer);
REF_CALL(store_append);
REF_CALL(array_count);
REF_CALL(array_at);
REF_CALL(record_at);
REF_CALL(unit_fresh);
REF_CALL(unit_step);
REF_CALL(unit_step_at);
REF_CALL(unit_kind);
REF_CALL(unit_rate);
REF_CALL(unit_phase);
REF_CALL(tool_fresh);
REF_CALL(tool_begin);
REF_CALL(tool_begin_at);
REF_CALL(tool_arrived);
REF_CALL(tool_arrived_at);
REF_CALL(tool_wait_ended);
REF_CALL(tool_wait_ended_at);
REF_CALL(tool_outcome);
REF_CALL(tool_code);
REF_CALL(tool_expected);
REF_CALL(tool_held);

#endif

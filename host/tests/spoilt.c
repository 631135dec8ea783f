#include "spoilt.h"

#include <string.h>

const kind_of_fault FAULT[FAULTS] = {
    [NAME_TWICE] = {"TREP and day of an earlier answer", 17},
    [FIRST_BYTE] = {"a first byte 75", 16},
    [TREP_UNLISTED] = {"TREP 06", 16},
    [DAY_IN_ACTIVITIES] = {"activities at second 86,401", 16},
    [DAY_ELSEWHERE] = {"an overview at second 86,400", 16},
    [STREAM_LONGER] = {"a stream longer by one than the answers", 15},
    [STREAM_SHORTER] = {"a stream shorter by one than the answers", 15},
    [OFFSET_LOW] = {"an offset one low", 15},
    [OFFSET_HIGH] = {"an offset one high", 15},
    [LENGTH_LESS] = {"a length one low", 15},
    [LENGTH_MORE] = {"a length one high", 15},
    [LENGTH_0] = {"length 0", 15},
    [LENGTH_1] = {"length 1", 15},
    [LENGTH_MOST] = {"length 65,535", 15},
    [END_PAST] = {"an end one past the stream", 15},
    [STREAM_OVER] = {"a stream over its bound", 14},
    [COUNT_OVER] = {"too many answers", 14},
    [CUT] = {"the last byte cut off", 13},
    [HEADER_CUT] = {"the last byte of the header cut off", 13},
};

const uint8_t TREPS[15] = {0, 1, 2, 3, 4, 5, 0x21, 0x22, 0x23, 0x24, 0x25, 0x31, 0x32, 0x33, 0x35};
const uint8_t DATED[3] = {0x02, 0x22, 0x32};

size_t two_at(const uint8_t *b)
{
    return (size_t)b[0] << 8 | b[1];
}

static void put_two(uint8_t *b, size_t n)
{
    memcpy(b, (const uint8_t[]){REF_TWO_BYTES(n)}, 2);
}

void put_four(uint8_t *b, uint32_t n)
{
    memcpy(b, (const uint8_t[]){REF_FOUR_BYTES(n)}, 4);
}

size_t entry_at(size_t i)
{
    return REF_STORE_HEADER + REF_STORE_ENTRY * i;
}

size_t count_in(const uint8_t *s)
{
    return two_at(s + REF_STORE_AT_COUNT);
}

size_t whole(const uint8_t *s)
{
    return entry_at(count_in(s)) + two_at(s + REF_STORE_AT_STREAM_LEN);
}

bool fault_fits(const uint8_t *good, fault f)
{
    size_t answers = count_in(good);
    switch (f.kind) {
    case STREAM_LONGER: case STREAM_OVER: case COUNT_OVER: case CUT: case HEADER_CUT: return true;
    case STREAM_SHORTER: return answers > 0;
    case NAME_TWICE: return f.first < f.at && f.at < answers;
    case LENGTH_LESS: return f.at < answers && two_at(good + entry_at(f.at) + REF_ENTRY_AT_LEN) > 2;
    case LENGTH_MORE: return f.at + 1 < answers;
    default: return f.at < answers;
    }
}

/* 16 and 17: the answer or its day. */
static void spoil_answer(const uint8_t *good, uint8_t *s, fault f)
{
    size_t stream = entry_at(count_in(good)), at = entry_at(f.at), first = entry_at(f.first);
    uint8_t *answer = s + stream + two_at(good + at + REF_ENTRY_AT_OFFSET), *day = s + at + REF_ENTRY_AT_DAY;
    switch (f.kind) {
    case NAME_TWICE:
        memcpy(day, good + first + REF_ENTRY_AT_DAY, 4);
        answer[1] = good[stream + two_at(good + first + REF_ENTRY_AT_OFFSET) + 1];
        break;
    case FIRST_BYTE: answer[0] = 0x75; break;
    case TREP_UNLISTED: answer[1] = 0x06; break;
    case DAY_IN_ACTIVITIES: answer[1] = 0x32, put_four(day, 86401); break;
    default: answer[1] = 0x31, put_four(day, 86400); break;
    }
}

/* 15: the entry, or the header's stream length. */
static void spoil_entry(const uint8_t *good, uint8_t *s, fault f)
{
    const uint8_t *entry = good + entry_at(f.at);
    size_t offset = two_at(entry + REF_ENTRY_AT_OFFSET), len = two_at(entry + REF_ENTRY_AT_LEN);
    size_t stream_len = two_at(good + REF_STORE_AT_STREAM_LEN);
    uint8_t *put_offset = s + entry_at(f.at) + REF_ENTRY_AT_OFFSET, *put_len = s + entry_at(f.at) + REF_ENTRY_AT_LEN;
    uint8_t *put_stream_len = s + REF_STORE_AT_STREAM_LEN;
    switch (f.kind) {
    case STREAM_LONGER: put_two(put_stream_len, stream_len + 1); break;
    case STREAM_SHORTER: put_two(put_stream_len, stream_len - 1); break;
    case OFFSET_LOW: put_two(put_offset, offset - 1); break; /* of entry 0: 65,535 */
    case OFFSET_HIGH: put_two(put_offset, offset + 1); break;
    case LENGTH_LESS: put_two(put_len, len - 1); break;
    case LENGTH_MORE: put_two(put_len, len + 1); break;
    case LENGTH_0: put_two(put_len, 0); break;
    case LENGTH_1: put_two(put_len, 1); break;
    case LENGTH_MOST: put_two(put_len, 0xFFFF); break;
    default: put_two(put_len, two_at(put_stream_len) - offset + 1); break; /* the stream may have been spoilt before */
    }
}

void spoil_store(const uint8_t *good, uint8_t *s, fault f)
{
    switch (FAULT[f.kind].number) {
    case 17: case 16: spoil_answer(good, s, f); break;
    case 15: spoil_entry(good, s, f); break;
    case 14: put_two(s + (f.kind == COUNT_OVER ? REF_STORE_AT_COUNT : REF_STORE_AT_STREAM_LEN), f.at); break;
    default: break; /* the buffer is shorter, which is spoilt_len's */
    }
}

size_t spoilt_len(const uint8_t *s, fault f)
{
    return f.kind == HEADER_CUT ? REF_STORE_HEADER - 1 : whole(s) - (f.kind == CUT);
}

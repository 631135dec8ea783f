/* Document 01, Transfer types, Bench store and Record arrays; document 02, Req 03 and Req 06. */
#include "reference.h"
#include "tables.h"

#include <string.h>

static const uint8_t table[6][3] = {
    {0xFF, 0xFF, 0x00}, {0x01, 0x21, 0x31}, {0x02, 0x22, 0x32}, {0x03, 0x23, 0x33}, {0x04, 0x24, 0x24}, {0x05, 0x25, 0x35},
};

bool ref_known(uint8_t kind, uint8_t trtp)
{
    if (trtp == 0xFF || kind > 2) return false;
    for (int row = 0; row < 6; row++)
        if (table[row][kind] == trtp) return true;
    return false;
}

bool ref_activities(uint8_t trtp)
{
    return trtp == 0x02 || trtp == 0x22 || trtp == 0x32;
}

static bool listed(uint8_t trep)
{
    return ref_known(0, trep) || ref_known(1, trep) || ref_known(2, trep);
}

bool ref_named(uint8_t trep, uint32_t second)
{
    return listed(trep) && (ref_activities(trep) || second == 0);
}

/* The name that an entry may have, which is number 16's rule: a multiple of 86,400, zero unless activities. */
static bool entry_named(uint8_t trep, uint32_t day)
{
    return listed(trep) && (ref_activities(trep) ? day % 86400 == 0 : day == 0);
}

/* The day under which a store has what is asked for by this second: a day is any second in it, but only activities have days. */
static uint32_t stored_day(uint8_t trep, uint32_t second)
{
    return ref_activities(trep) ? 86400 * (second / 86400) : second;
}

uint32_t ref_be16(const uint8_t *b)
{
    return (uint32_t)b[0] << 8 | b[1];
}

uint32_t ref_be32(const uint8_t *b)
{
    return ref_be16(b) << 16 | ref_be16(b + 2);
}

static void put16(uint8_t *b, uint32_t n)
{
    b[0] = (uint8_t)(n >> 8);
    b[1] = (uint8_t)n;
}

/* The fields of a store that is long enough for them. */

static size_t count_of(const uint8_t *s)
{
    return ref_be16(s + REF_STORE_AT_COUNT);
}

static size_t stream_len_of(const uint8_t *s)
{
    return ref_be16(s + REF_STORE_AT_STREAM_LEN);
}

static size_t stream_at(size_t count)
{
    return REF_STORE_HEADER + REF_STORE_ENTRY * count;
}

static const uint8_t *entry(const uint8_t *s, size_t i)
{
    return s + stream_at(i);
}

static uint32_t day_of(const uint8_t *s, size_t i)
{
    return ref_be32(entry(s, i) + REF_ENTRY_AT_DAY);
}

static size_t offset_of(const uint8_t *s, size_t i)
{
    return ref_be16(entry(s, i) + REF_ENTRY_AT_OFFSET);
}

static size_t len_of(const uint8_t *s, size_t i)
{
    return ref_be16(entry(s, i) + REF_ENTRY_AT_LEN);
}

static const uint8_t *answer(const uint8_t *s, size_t i)
{
    return s + stream_at(count_of(s)) + offset_of(s, i);
}

/* Each check over all entries, the first entry first, before the next. */
tacho_fault ref_store_fault(const uint8_t *s, size_t len)
{
    if (len < REF_STORE_HEADER) return (tacho_fault){13, 0};
    size_t n = count_of(s), t = stream_len_of(s), end = 0;
    if (len < stream_at(n) + t) return (tacho_fault){13, n};
    if (n > 64 || t > 60000) return (tacho_fault){14, n};
    for (size_t i = 0; i < n; i++) {
        size_t l = len_of(s, i);
        if (offset_of(s, i) != end || l < 2 || end + l > t) return (tacho_fault){15, i};
        end += l;
    }
    if (end < t) return (tacho_fault){15, n};
    for (size_t i = 0; i < n; i++)
        if (answer(s, i)[0] != 0x76 || !entry_named(answer(s, i)[1], day_of(s, i))) return (tacho_fault){16, i};
    for (size_t i = 0; i < n; i++)
        for (size_t j = 0; j < i; j++)
            if (answer(s, i)[1] == answer(s, j)[1] && day_of(s, i) == day_of(s, j)) return (tacho_fault){17, i};
    return (tacho_fault){0, 0};
}

uint8_t ref_store_check(const uint8_t *s, size_t len)
{
    return ref_store_fault(s, len).number;
}

tacho_part ref_store_find(const uint8_t *s, uint8_t trep, uint32_t second)
{
    size_t n = count_of(s);
    uint32_t day = stored_day(trep, second);
    for (size_t i = 0; i < n; i++)
        if (answer(s, i)[1] == trep && day_of(s, i) == day)
            return (tacho_part){0, (size_t)(answer(s, i) - s), len_of(s, i)};
    return (tacho_part){6, 0, 0};
}

tacho_part ref_store_lookup(const uint8_t *s, size_t len, uint8_t trep, uint32_t second)
{
    uint8_t number = ref_store_check(s, len);
    if (number) return (tacho_part){number, 0, 0};
    return ref_store_find(s, trep, second);
}

tacho_part ref_store_stream(const uint8_t *s, size_t len)
{
    uint8_t number = ref_store_check(s, len);
    if (number) return (tacho_part){number, 0, 0};
    return (tacho_part){0, stream_at(count_of(s)), stream_len_of(s)};
}

tacho_counted ref_store_count(const uint8_t *s, size_t len)
{
    uint8_t number = ref_store_check(s, len);
    return (tacho_counted){number, number ? 0 : count_of(s)};
}

tacho_held ref_store_answer(const uint8_t *s, size_t len, size_t k)
{
    uint8_t number = ref_store_check(s, len);
    if (number) return (tacho_held){.number = number};
    if (k >= count_of(s)) return (tacho_held){.number = 6};
    const uint8_t *a = answer(s, k);
    return (tacho_held){0, a[1], day_of(s, k), (size_t)(a - s), len_of(s, k)};
}

tacho_written ref_store_append(uint8_t *s, size_t len, const uint8_t *a, size_t a_len, uint32_t second)
{
    uint8_t number = ref_store_check(s, len);
    if (number) return (tacho_written){number, 0};
    if (a_len < 2 || a[0] != 0x76 || !ref_named(a[1], second)) return (tacho_written){12, 0};
    if (ref_store_find(s, a[1], second).number == 0) return (tacho_written){7, 0};
    size_t n = count_of(s), t = stream_len_of(s);
    if (n + 1 > 64 || a_len > 60000 || t + a_len > 60000) return (tacho_written){8, 0};
    size_t whole = stream_at(n + 1) + t + a_len;
    if (len < whole) return (tacho_written){4, 0};
    uint8_t *e = s + stream_at(n), *stream = e + REF_STORE_ENTRY;
    uint32_t day = stored_day(a[1], second);
    memmove(stream, e, t);
    memcpy(stream + t, a, a_len);
    put16(e + REF_ENTRY_AT_DAY, day >> 16);
    put16(e + REF_ENTRY_AT_DAY + 2, day);
    put16(e + REF_ENTRY_AT_OFFSET, (uint32_t)t);
    put16(e + REF_ENTRY_AT_LEN, (uint32_t)a_len);
    put16(s + REF_STORE_AT_COUNT, (uint32_t)n + 1);
    put16(s + REF_STORE_AT_STREAM_LEN, (uint32_t)(t + a_len));
    return (tacho_written){0, whole};
}

/* The array whose header begins at `at`: its records' length, or -1 where none stands there. */
static int64_t records_at(const uint8_t *b, size_t len, size_t at)
{
    if (len - at < 5) return -1;
    uint64_t size = ref_be16(b + at + 1), bytes = size * ref_be16(b + at + 3);
    return size == 0 || bytes > len - at - 5 ? -1 : (int64_t)bytes;
}

tacho_counted ref_array_count(const uint8_t *b, size_t len)
{
    size_t at = 0, count = 0;
    while (at < len) {
        int64_t bytes = records_at(b, len, at);
        if (bytes < 0) return (tacho_counted){9, 0};
        at += 5 + (size_t)bytes;
        count++;
    }
    return (tacho_counted){0, count};
}

tacho_array ref_array_at(const uint8_t *b, size_t len, size_t k)
{
    tacho_counted c = ref_array_count(b, len);
    if (c.number) return (tacho_array){9, 0, 0, 0, 0, 0};
    if (k >= c.count) return (tacho_array){10, 0, 0, 0, 0, 0};
    size_t at = 0;
    while (k--) at += 5 + (size_t)records_at(b, len, at);
    return (tacho_array){0, b[at], (uint16_t)ref_be16(b + at + 1), (uint16_t)ref_be16(b + at + 3), at + 5, (size_t)records_at(b, len, at)};
}

tacho_part ref_record_at(const uint8_t *b, size_t len, size_t k, size_t r)
{
    tacho_array a = ref_array_at(b, len, k);
    if (a.number) return (tacho_part){a.number, 0, 0};
    if (r >= a.count) return (tacho_part){10, 0, 0};
    return (tacho_part){0, a.start + r * a.size, a.size};
}

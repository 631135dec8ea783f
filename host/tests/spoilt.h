/* Faults that are put into a store without any (document 02, Req 06), and what of a store's layout they need. */
#ifndef SPOILT_H
#define SPOILT_H

#include "reference.h"

/* The kinds of faults, in the order in which two are put in: the second may write over what the first changed, so its number is never the
 * higher one. */
typedef enum {
    NAME_TWICE, FIRST_BYTE, TREP_UNLISTED, DAY_IN_ACTIVITIES, DAY_ELSEWHERE, STREAM_LONGER, STREAM_SHORTER, OFFSET_LOW, OFFSET_HIGH,
    LENGTH_LESS, LENGTH_MORE, LENGTH_0, LENGTH_1, LENGTH_MOST, END_PAST, STREAM_OVER, COUNT_OVER, CUT, HEADER_CUT, FAULTS
} fault_kind;

/* Each kind in words, and the number that it has. */
typedef struct {
    const char *name;
    uint8_t number;
} kind_of_fault;

extern const kind_of_fault FAULT[FAULTS];

/* One fault: its entry, or the value that a field of the header gets; for a name that comes twice, the answer that has it first. */
typedef struct {
    fault_kind kind;
    size_t at, first;
} fault;

/* Whether a store without faults has the entry, and something to spoil there. */
bool fault_fits(const uint8_t *good, fault f);

/* Puts the fault into a copy of the good store, or into that itself. */
void spoil_store(const uint8_t *good, uint8_t *s, fault f);

/* How long the buffer of a store with this fault is: just as the header says, unless it is cut. */
size_t spoilt_len(const uint8_t *s, fault f);

/* The TREPs that an answer in a store can have; and those of activities, which alone have a day. */
extern const uint8_t TREPS[15], DATED[3];

/* Numbers of two and four bytes, the most significant first. */
size_t two_at(const uint8_t *b);
void put_four(uint8_t *b, uint32_t n);

/* Where entry i of a store stands; the stream stands behind the last. */
size_t entry_at(size_t i);

/* How many answers a store has by its header, and how long it is. */
size_t count_in(const uint8_t *s);
size_t whole(const uint8_t *s);

#endif

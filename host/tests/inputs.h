/* Inputs of the calls for the differential test: random, valid and damaged ones. A call that writes bytes gives their length. */
#ifndef INPUTS_H
#define INPUTS_H

#include "readdressed.h"

/* The longest buffers that are lent: stores and rooms with bytes to spare, and states that are some bytes too long. */
enum { LONGEST = TACHO_STORE_MOST + 100, STATE_ROOM = 20 };

/* A TREP, mostly a listed one; whether it is one of activities; a day to ask for beside it. */
uint8_t some_trep(void);
bool is_dated(uint8_t trep);
uint32_t some_day(uint8_t trep);

/* A length up to `most`, often one where something changes. */
size_t some_length(size_t most);

/* A number of a sub message, mostly near the one given. */
uint16_t some_number(uint16_t near);

/* The addresses that a call is given: often the lab's, sometimes equal ones. */
addresses some_addresses(void);

/* A frame with these addresses, up to 300 bytes; a number in it lies near the one given. */
size_t some_frame(uint8_t *f, addresses a, bool to_tool, uint16_t near);

/* A store, sometimes broken; a name that it may hold; the frame of a request for such a name. */
size_t some_store(uint8_t *s);
void name_in(const uint8_t *s, size_t n, uint8_t *trep, uint32_t *day);
size_t some_held_request(uint8_t *f, addresses a, const uint8_t *s, size_t n);

/* States, sometimes impossible or no states, up to STATE_ROOM bytes; and a frame that arrives at a tool in this state. */
size_t some_unit_state(uint8_t *b, const uint8_t *store, size_t store_len);
size_t some_tool_state(uint8_t *b);
size_t some_arrival(uint8_t *frame, addresses sent, const uint8_t *s, size_t state_len);

/* The number in two bytes of a packed state, 0 where that is too short: what the unit sent last or the tool expects. */
uint16_t number_at(const uint8_t *state, size_t len, size_t at);

/* Record arrays, up to 4,000 bytes. */
size_t some_body(uint8_t *b);

#endif

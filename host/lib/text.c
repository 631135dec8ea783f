/* House numbers, wire codes and transfer types in words. */
#include "tacho.h"

const char *tacho_number_text(uint8_t number)
{
    switch (number) {
    case TACHO_OK: return "not refused";
    case TACHO_FRAME_COUNT: return "wrong count of bytes in a frame";
    case TACHO_FORMAT_OR_ADDRESS: return "wrong format or address in a frame, or two equal addresses";
    case TACHO_CHECKSUM: return "wrong checksum in a frame";
    case TACHO_BUFFER_SHORT: return "a lent buffer is too short";
    case TACHO_NOT_HELD: return "the answer is not held";
    case TACHO_ALREADY_HELD: return "the answer is held already";
    case TACHO_OVER_BOUND: return "over 64 answers or 60,000 bytes";
    case TACHO_NOT_ARRAYS: return "the body is no run of record arrays";
    case TACHO_NO_SUCH: return "no such array, record or sub message";
    case TACHO_OUT_OF_TURN: return "impossible state, or a call out of turn";
    case TACHO_NOT_IN_TABLE: return "not in the table of transfer types, or a day outside activities";
    case TACHO_STORE_SHORT: return "the buffer is shorter than its header says";
    case TACHO_STORE_BOUNDS: return "too many answers, or a stream over its bound";
    case TACHO_STORE_ENTRY: return "an entry's offset or length is wrong";
    case TACHO_STORE_ANSWER: return "an answer's first two bytes or its day are wrong";
    case TACHO_STORE_TWICE: return "the same TREP and day twice";
    default: return "unknown number";
    }
}

const char *tacho_code_text(uint8_t code)
{
    switch (code) {
    case 0x10: return "general reject";
    case 0x11: return "service not supported";
    case 0x12: return "sub function not supported, or no further sub message";
    case 0x13: return "incorrect message length";
    case 0x22: return "conditions not correct, or request sequence error";
    case 0x31: return "request out of range";
    case 0x50: return "upload not accepted";
    case 0x78: return "response pending";
    case 0xFA: return "data not available";
    default: return "a code that the appendix does not list";
    }
}

const char *tacho_type_text(uint8_t trep)
{
    switch (trep) {
    case 0x00: return "interface version";
    case 0x01: case 0x21: case 0x31: return "overview";
    case 0x02: case 0x22: case 0x32: return "activities";
    case 0x03: case 0x23: case 0x33: return "events and faults";
    case 0x04: case 0x24: return "detailed speed";
    case 0x05: case 0x25: case 0x35: return "technical data";
    default: return "no listed type";
    }
}

/* The records of a script: a tag, a length of two bytes, the value. */
#ifndef RUNNER_RECORDS_H
#define RUNNER_RECORDS_H

#include <stdbool.h>
#include <stddef.h>
#include <stdint.h>

enum { SHAPE_TAG = 1, ASK_TAG = 2, GO_ON_TAG = 3, GIVE_TAG = 4, SWITCH_TAG = 5, TICK_TAG = 6, WHOLE_TAG = 7 };

/* The most bytes of a script that is run. */
enum { SCRIPT_MOST = 65536 };

/* A record: its tag, its value and the value's length. */
typedef struct record {
    uint8_t tag;
    size_t length;
    const uint8_t *value;
} record;

/* Numbers of two and of four bytes, lowest first. */
static inline size_t two_bytes(const uint8_t *at) { return at[0] | (size_t)at[1] << 8; }
static inline uint32_t four_bytes(const uint8_t *at) {
    return at[0] | (uint32_t)at[1] << 8 | (uint32_t)at[2] << 16 | (uint32_t)at[3] << 24;
}

/* Whether a value of this length belongs to the tag. */
static inline bool length_fits(uint8_t tag, size_t length) {
    switch (tag) {
    case SHAPE_TAG:
        return length == 8;
    case ASK_TAG:
        return length == 9 || length == 5;
    case GO_ON_TAG:
    case SWITCH_TAG:
        return length == 1;
    case GIVE_TAG:
        return length == 5;
    case TICK_TAG:
    case WHOLE_TAG:
        return length == 0;
    default:
        return false;
    }
}

/* Reads the record at an offset; answers false where it is cut, or no record that may stand there. */
static inline bool read_record(const uint8_t *script, size_t length, size_t at, record *out) {
    if (length - at < 3) {
        return false;
    }
    *out = (record){script[at], two_bytes(script + at + 1), script + at + 3};
    return length - at - 3 >= out->length && (at == 0) == (out->tag == SHAPE_TAG) && length_fits(out->tag, out->length);
}

#endif

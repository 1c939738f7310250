/* The three questions on valid tables: whole, cover and map. */
#ifndef PLAIN_QUESTIONS_H
#define PLAIN_QUESTIONS_H

#include "answers.h"
#include "calls.h"

/* Whole: every top block is FREE, and no thread has a call open. */
static inline answer whole_of(shape s, const uint8_t *states, const call *calls) {
    bool whole = true;
    for (size_t top = 0; top < s.tops; top++) {
        whole &= states[top] == SALTBALANCE_FREE;
    }
    for (size_t t = 0; t < s.threads; t++) {
        whole &= calls[t].stage == CLOSED;
    }
    return bare(whole ? SALTBALANCE_WHOLE : SALTBALANCE_NOT_WHOLE);
}

/* Cover: the one undivided block over a byte offset, with its state. */
static inline saltbalance_covered cover_of(shape s, const uint8_t *states, size_t offset) {
    if (offset >= s.tops * s.top_size) {
        return (saltbalance_covered){SALTBALANCE_OFFSET_OUTSIDE, 0, 0};
    }
    size_t level = 0, block = offset / s.top_size;
    while (states[place_of(s, level, block)] == SALTBALANCE_DIVIDED) {
        level++;
        block = offset / size_at(s, level);
    }
    return (saltbalance_covered){0, id_of(s, level, block), states[place_of(s, level, block)]};
}

/* How many undivided existing blocks there are. */
static inline size_t count_undivided(const uint8_t *states, size_t blocks) {
    uint16_t sum = 0;
    for (size_t k = 0; k < blocks; k++) {
        sum = (uint16_t)(sum + (states[k] != SALTBALANCE_DIVIDED && states[k] != SALTBALANCE_NOEXIST));
    }
    return sum;
}

/* Lists so many neighbours of a level from here on, a DIVIDED one as its quarters, and answers where the row goes on. */
static uint32_t *list_blocks(shape s, const uint8_t *states, uint32_t *row, size_t level, size_t block, size_t count) {
    const uint8_t *state = states + place_of(s, level, block);
    for (size_t i = 0; i < count; i++) {
        if (state[i] == SALTBALANCE_DIVIDED) {
            row = list_blocks(s, states, row, level + 1, 4 * (block + i), 4);
        } else {
            *row++ = (uint32_t)id_of(s, level, block + i);
        }
    }
    return row;
}

/* Map: the ids of all undivided blocks by address into a row; one that is too short is left untouched. */
static inline saltbalance_mapped map_of(shape s, const uint8_t *states, uint32_t *row, size_t row_length) {
    size_t count = count_undivided(states, above(s, s.levels));
    if (row_length < count) {
        return (saltbalance_mapped){SALTBALANCE_ROW_TOO_SHORT, 0};
    }
    list_blocks(s, states, row, 0, 0, s.tops);
    return (saltbalance_mapped){0, count};
}

#endif

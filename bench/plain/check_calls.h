/* Each call by itself, and the blocks in hand. */
#ifndef PLAIN_CHECK_CALLS_H
#define PLAIN_CHECK_CALLS_H

#include "calls.h"

/* Whether a call's stage uses the kind of wait, or has a block in hand. */
static inline bool uses_wait(uint64_t stage) { return stage == ASKED || stage == WAITING || stage == FOUND; }
static inline bool uses_block(uint64_t stage) { return stage == DIVIDING || stage == RELEASING; }

/* Whether stage and kind of wait are known, and the fields that the stage does not use hold zero. */
static inline bool fields_used(const call *c) {
    bool wait = uses_wait(c->stage), block = uses_block(c->stage);
    bool known = (wait || block || c->stage == CLOSED) && (c->wait == NEVER || c->wait == FOREVER || c->wait == TIMED);
    return known && (wait || c->stage == DIVIDING || c->size == 0) && (wait || c->wait == 0) &&
           ((wait && c->wait == TIMED) || c->deadline == 0) && (c->stage == FOUND || block || c->level == 0) && (block || c->block == 0);
}

/* Whether a block in hand is one of the shape, and a level not deeper than its target. */
static inline bool level_kept(shape s, const call *c) {
    if (uses_block(c->stage) && (c->level >= s.levels || c->block >= count_at(s, c->level))) {
        return false;
    }
    return (c->stage != DIVIDING && c->stage != FOUND) || c->level <= level_for(s, c->size);
}

/* Whether a timed deadline is not too far, and above the clock while waiting; and who waits may wait. */
static inline bool deadline_kept(uint64_t clock, const call *c) {
    if (c->stage == WAITING && c->wait == NEVER) {
        return false;
    }
    return c->wait != TIMED || (c->deadline <= clock + LONGEST_TICKS && (c->stage != WAITING || c->deadline > clock));
}

/* Whether all that is said of each call by itself holds. */
static inline bool calls_valid(shape s, uint64_t clock, const call *calls) {
    for (size_t t = 0; t < s.threads; t++) {
        const call *c = calls + t;
        if (c->stage == CLOSED && (c->size | c->wait | c->deadline | c->level | c->block) == 0) {
            continue;
        }
        if (!fields_used(c) || !level_kept(s, c) || c->size > s.top_size || !deadline_kept(clock, c)) {
            return false;
        }
    }
    return true;
}

/* How many blocks are FREEING or ALLOCATING: of the known states these alone have the third bit set. Counted in bytes, in parts that a
 * byte can count, which is quickest. */
static inline size_t count_in_hand(const uint8_t *states, size_t blocks) {
    size_t sum = 0;
    while (blocks > 0) {
        size_t part = blocks < 240 ? blocks : 240;
        uint8_t some = 0;
        for (size_t k = 0; k < part; k++) {
            some = (uint8_t)(some + (states[k] >> 2));
        }
        sum += some;
        states += part;
        blocks -= part;
    }
    return sum;
}

/* Whether a call before this one has the same block in hand. */
static inline bool in_hand_before(const call *calls, size_t t) {
    for (size_t u = 0; u < t; u++) {
        if (uses_block(calls[u].stage) && calls[u].level == calls[t].level && calls[u].block == calls[t].block) {
            return true;
        }
    }
    return false;
}

/* Whether ALLOCATING blocks correspond to dividing calls and FREEING blocks to releasing calls, one to one: each call's block is in its
 * state, no two are the same, and there are no more. */
static inline bool hands_valid(shape s, const uint8_t *states, const call *calls) {
    size_t in_hand = 0;
    for (size_t t = 0; t < s.threads; t++) {
        const call *c = calls + t;
        if (!uses_block(c->stage)) {
            continue;
        }
        uint8_t state = c->stage == DIVIDING ? SALTBALANCE_ALLOCATING : SALTBALANCE_FREEING;
        if (states[place_of(s, c->level, c->block)] != state || in_hand_before(calls, t)) {
            return false;
        }
        in_hand++;
    }
    return count_in_hand(states, above(s, s.levels)) == in_hand;
}

#endif

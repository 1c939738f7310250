/* The steps of a call that releases a block, on valid tables: merge and settle. */
#ifndef PLAIN_STEPS_RELEASE_H
#define PLAIN_STEPS_RELEASE_H

#include "answers.h"
#include "calls.h"
#include "lists.h"

/* Whether the block in hand lies below level 0 and its three buddies are FREE; it is FREEING itself. */
static inline bool merges(shape s, const uint8_t *states, const call *c) {
    if (c->level == 0) {
        return false;
    }
    const uint8_t *quarters = states + place_of(s, c->level, c->block & ~(uint64_t)3);
    size_t free = 0;
    for (size_t j = 0; j < 4; j++) {
        free += quarters[j] == SALTBALANCE_FREE;
    }
    return free == 3;
}

/* Merge: the buddies leave the list, all four become NOEXIST, the parent FREEING and in hand. */
static inline answer merge(shape s, uint8_t *states, uint16_t *lists, call *c) {
    size_t level = c->level - 1, parent = c->block / 4;
    memset(states + place_of(s, c->level, 4 * parent), SALTBALANCE_NOEXIST, 4);
    states[place_of(s, level, parent)] = SALTBALANCE_FREEING;
    remove_quarters(s, lists, c->level, parent);
    c->level = level;
    c->block = parent;
    return detailed(SALTBALANCE_MERGED, id_of(s, level, parent));
}

/* Settle: the block becomes FREE and is listed, the call closes, and every waiting thread is ready and asked. */
static inline answer settle(shape s, uint8_t *states, uint16_t *lists, call *calls, call *c, uint8_t *queue) {
    states[place_of(s, c->level, c->block)] = SALTBALANCE_FREE;
    append(s, lists, c->level, c->block);
    *c = closed_call;
    return detailed(SALTBALANCE_SETTLED, wake_all(calls, queue));
}

/* Release: merge while the buddies are FREE, then settle. */
static inline answer release(shape s, uint8_t *states, uint16_t *lists, call *calls, call *c, uint8_t *queue) {
    return merges(s, states, c) ? merge(s, states, lists, c) : settle(s, states, lists, calls, c, queue);
}

#endif

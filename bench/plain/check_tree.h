/* The states, the owners and the tree that the blocks form, in passes without branches that the compiler turns into vector code. */
#ifndef PLAIN_CHECK_TREE_H
#define PLAIN_CHECK_TREE_H

#include "shape.h"

#include <string.h>

/* A one in each byte of a word. */
#define EACH 0x01010101u

/* Whether every state is known, and an ALLOCATED block, and no other, has a thread as owner. */
static inline bool owners_known(const uint8_t *states, const uint8_t *owners, size_t blocks, size_t threads) {
    uint8_t unpaired = 0, highest_state = 0, highest_owner = 0;
    for (size_t k = 0; k < blocks; k++) {
        uint8_t state = states[k], owner = owners[k];
        unpaired |= (uint8_t)((state == SALTBALANCE_ALLOCATED) == (owner == 0));
        highest_state = state > highest_state ? state : highest_state;
        highest_owner = owner > highest_owner ? owner : highest_owner;
    }
    return !unpaired && highest_state <= SALTBALANCE_ALLOCATING && highest_owner <= threads;
}

/* Whether no block between two places is in this state. */
static inline bool none_is(const uint8_t *states, size_t from, size_t to, uint8_t state) {
    uint8_t found = 0;
    for (size_t k = from; k < to; k++) {
        found |= (uint8_t)(states[k] == state);
    }
    return !found;
}

/* Whether the quarters of a DIVIDED block exist and are not all FREE, and those of any other block do not exist: four at a time as a
 * word. Of the states NOEXIST alone has its two lowest bits set. */
static inline bool quarters_kept(shape s, const uint8_t *states, size_t parents) {
    const uint8_t *quarters = states + s.tops;
    uint32_t bad = 0;
    for (size_t i = 0; i < parents; i++) {
        uint32_t word;
        memcpy(&word, quarters + 4 * i, sizeof word);
        uint32_t missing = word & (word >> 1) & EACH;
        uint32_t expected = -(uint32_t)(states[i] != SALTBALANCE_DIVIDED) & EACH;
        bad |= (missing ^ expected) | -(uint32_t)(word == SALTBALANCE_FREE * EACH);
    }
    return bad == 0;
}

/* Whether states and owners are those of a valid state. */
static inline bool tree_valid(shape s, const uint8_t *states, const uint8_t *owners) {
    size_t blocks = above(s, s.levels);
    size_t deepest = above(s, s.levels - 1);
    return owners_known(states, owners, blocks, s.threads) && none_is(states, 0, s.tops, SALTBALANCE_NOEXIST) &&
           none_is(states, deepest, blocks, SALTBALANCE_DIVIDED) && quarters_kept(s, states, deepest);
}

#endif

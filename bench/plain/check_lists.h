/* The free lists: each names the FREE blocks of its level once and nothing else, with zeros behind its end. */
#ifndef PLAIN_CHECK_LISTS_H
#define PLAIN_CHECK_LISTS_H

#include "lists.h"

/* Whether every cell holds zero. */
static inline bool all_zero(const uint16_t *cells, size_t count) {
    uint16_t any = 0;
    for (size_t i = 0; i < count; i++) {
        any |= cells[i];
    }
    return any == 0;
}

/* Whether every member is below a bound. */
static inline bool all_below(const uint16_t *members, size_t used, uint16_t bound) {
    uint16_t outside = 0;
    for (size_t i = 0; i < used; i++) {
        outside |= (uint16_t)(members[i] >= bound);
    }
    return !outside;
}

/* Marks the members of a list; answers whether none stands there twice. */
static inline bool mark(const uint16_t *members, size_t used, uint8_t *marks) {
    uint8_t twice = 0;
#pragma GCC unroll 4
    for (size_t i = 0; i < used; i++) {
        twice |= marks[members[i]];
        marks[members[i]] = 1;
    }
    return !twice;
}

/* Whether the blocks marked are those that are FREE. */
static inline bool marks_agree(const uint8_t *states, const uint8_t *marks, size_t count) {
    uint8_t differ = 0;
    for (size_t i = 0; i < count; i++) {
        differ |= (uint8_t)(marks[i] ^ (states[i] == SALTBALANCE_FREE));
    }
    return !differ;
}

/* The list of one level of so many blocks: its cells, how many are used, and unset marks. */
static inline bool level_valid(const uint8_t *states, const uint16_t *cells, size_t used, size_t count, uint8_t *marks) {
    return used <= count && all_zero(cells + used, count - used) && all_below(cells, used, (uint16_t)count) && mark(cells, used, marks) &&
           marks_agree(states, marks, count);
}

/* The lists of all levels; the marks stand in one flat array. */
static inline bool lists_valid(shape s, const uint8_t *states, const uint16_t *lists) {
    uint8_t marks[SALTBALANCE_BLOCKS(SALTBALANCE_MOST_LEVELS, SALTBALANCE_MOST_TOPS)];
    memset(marks, 0, above(s, s.levels));
    for (size_t level = 0; level < s.levels; level++) {
        size_t from = above(s, level);
        if (!level_valid(states + from, lists + s.levels + from, lists[level], count_at(s, level), marks + from)) {
            return false;
        }
    }
    return true;
}

#endif

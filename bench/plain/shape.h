/* A shape's limits, sizes, counts, places and ids. */
#ifndef PLAIN_SHAPE_H
#define PLAIN_SHAPE_H

#include "saltbalance.h"

#include <stdbool.h>

typedef saltbalance_shape shape;

/* A power of four. */
static inline size_t power(size_t exponent) { return (size_t)1 << (2 * exponent); }

/* Whether the numbers lie within the limits. */
static inline bool shape_allowed(shape s) {
    return s.pool <= SALTBALANCE_MOST_POOL && s.threads >= 1 && s.threads <= SALTBALANCE_MOST_THREADS && s.levels >= 1 &&
           s.levels <= SALTBALANCE_MOST_LEVELS && s.tops >= 1 && s.tops <= SALTBALANCE_MOST_TOPS && s.top_size >= 1 &&
           s.top_size <= SALTBALANCE_MOST_TOP_SIZE && (s.top_size & (power(s.levels) - 1)) == 0;
}

/* The bytes of a block of this level. */
static inline size_t size_at(shape s, size_t level) { return s.top_size >> (2 * level); }

/* How many blocks a level has. */
static inline size_t count_at(shape s, size_t level) { return s.tops << (2 * level); }

/* How many blocks lie above a level. */
static inline size_t above(shape s, size_t level) { return s.tops * ((power(level) - 1) / 3); }

/* The place of a block in the tables. */
static inline size_t place_of(shape s, size_t level, size_t block) { return above(s, level) + block; }

/* A block's id. */
static inline size_t id_of(shape s, size_t level, size_t block) { return s.pool + (level << 8) + (block << 12); }

/* The deepest level whose size is at least the request. */
static inline size_t level_for(shape s, size_t request) {
    size_t level = s.levels - 1;
    while (level > 0 && request > size_at(s, level)) {
        level--;
    }
    return level;
}

#endif

/* The free lists: the length of each, then a section for each level with its members in order and zeros behind them. */
#ifndef PLAIN_LISTS_H
#define PLAIN_LISTS_H

#include "shape.h"

#include <string.h>

/* Where the members of a level's list begin. */
static inline size_t section(shape s, size_t level) { return s.levels + above(s, level); }

/* Adds a block at the end of a level's list. */
static inline void append(shape s, uint16_t *lists, size_t level, size_t block) {
    lists[section(s, level) + lists[level]] = (uint16_t)block;
    lists[level]++;
}

/* Takes the first of a level's list away, and answers it. */
static inline size_t take_first(shape s, uint16_t *lists, size_t level) {
    uint16_t *row = lists + section(s, level);
    size_t first = row[0];
    size_t left = --lists[level];
    memmove(row, row + 1, left * sizeof *row);
    row[left] = 0;
    return first;
}

/* The next member from here on that is a quarter of this block, or the end of the list. */
static inline size_t next_quarter(const uint16_t *row, size_t from, size_t members, size_t parent) {
    while (from < members && row[from] >> 2 != parent) {
        from++;
    }
    return from;
}

/* Takes the quarters of a block out of a level's list, the rest keeping its order: what stands between two of them moves forward. */
static inline void remove_quarters(shape s, uint16_t *lists, size_t level, size_t parent) {
    uint16_t *row = lists + section(s, level);
    size_t members = lists[level];
    size_t kept = next_quarter(row, 0, members, parent);
    for (size_t at = kept; at < members;) {
        size_t from = at + 1;
        at = next_quarter(row, from, members, parent);
        memmove(row + kept, row + from, (at - from) * sizeof *row);
        kept += at - from;
    }
    memset(row + kept, 0, (members - kept) * sizeof *row);
    lists[level] = (uint16_t)kept;
}

#endif

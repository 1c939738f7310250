/* Tables made fresh: the top blocks FREE and listed 0 upward, no calls, nobody in the queue. */
#ifndef PLAIN_FRESH_H
#define PLAIN_FRESH_H

#include "calls.h"

static inline void make_fresh(shape s, uint8_t *states, uint8_t *owners, uint16_t *lists, call *calls, uint8_t *queue) {
    size_t blocks = above(s, s.levels);
    memset(states, SALTBALANCE_NOEXIST, blocks);
    memset(states, SALTBALANCE_FREE, s.tops);
    memset(owners, 0, blocks);
    memset(lists, 0, (s.levels + blocks) * sizeof *lists);
    memset(calls, 0, s.threads * sizeof *calls);
    memset(queue, 0, s.threads + 1);
    lists[0] = (uint16_t)s.tops;
    for (size_t top = 0; top < s.tops; top++) {
        lists[s.levels + top] = (uint16_t)top;
    }
}

#endif

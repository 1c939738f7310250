/* The check that every call but build begins with: the shape, the lengths of the tables, and whether they are a valid state. */
#ifndef PLAIN_CHECK_H
#define PLAIN_CHECK_H

#include "check_calls.h"
#include "check_lists.h"
#include "check_queue.h"
#include "check_tree.h"

/* The lengths of the five tables. */
typedef struct lengths {
    size_t states, owners, lists, calls, queue;
} lengths;

/* The first of the refusals 1 and 2 that applies, or 0. */
static inline size_t shape_refusal(shape s, lengths n) {
    if (!shape_allowed(s)) {
        return SALTBALANCE_SHAPE_NOT_ALLOWED;
    }
    size_t blocks = above(s, s.levels);
    bool right = n.states == blocks && n.owners == blocks && n.lists == s.levels + blocks && n.calls == CELLS * s.threads &&
                 n.queue == s.threads + 1;
    return right ? 0 : SALTBALANCE_WRONG_LENGTH;
}

/* The first of the refusals 1 to 3 that applies, or 0. */
static size_t refusal_of(saltbalance_device device, shape s, const uint8_t *states, const uint8_t *owners, const uint16_t *lists,
                         const call *calls, const uint8_t *queue, lengths n) {
    size_t refusal = shape_refusal(s, n);
    if (refusal != 0) {
        return refusal;
    }
    bool valid = tree_valid(s, states, owners) && lists_valid(s, states, lists) && calls_valid(s, device.clock, calls) &&
                 hands_valid(s, states, calls) && queue_kept(s, calls, queue) && running_ready(s, calls, device.running);
    return valid ? 0 : SALTBALANCE_NOT_VALID;
}

#endif

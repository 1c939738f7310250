/* The queue and the running thread. */
#ifndef PLAIN_CHECK_QUEUE_H
#define PLAIN_CHECK_QUEUE_H

#include "calls.h"

/* Whether the queue names each waiting thread once and nothing else, with zeros behind its end. Threads are bits of a word. */
static inline bool queue_kept(shape s, const call *calls, const uint8_t *queue) {
    size_t end = queue[0];
    if (end > s.threads) {
        return false;
    }
    unsigned named = 0, waiting = 0, bad = 0;
    for (size_t i = 0; i < s.threads; i++) {
        unsigned thread = queue[i + 1];
        if (i < end) {
            unsigned bit = thread < s.threads ? 1u << thread : 0;
            bad |= bit == 0 || (named & bit) != 0;
            named |= bit;
        } else {
            bad |= thread;
        }
        waiting |= (unsigned)(calls[i].stage == WAITING) << i;
    }
    return bad == 0 && named == waiting;
}

/* Whether the running thread, if there is one, is a thread of the shape and is not blocked. */
static inline bool running_ready(shape s, const call *calls, uint32_t running) {
    return running == 0 || (running <= s.threads && calls[running - 1].stage != WAITING);
}

#endif

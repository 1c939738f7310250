/* Answers: a number of the header's lists and its detail. */
#ifndef PLAIN_ANSWERS_H
#define PLAIN_ANSWERS_H

#include "saltbalance.h"

typedef saltbalance_answer answer;

/* An answer that has a detail, and one that has none. */
static inline answer detailed(size_t number, size_t detail) { return (answer){number, detail}; }
static inline answer bare(size_t number) { return (answer){number, 0}; }

/* The first of the refusals 4 and 5 that applies to a thread's call, or 0. */
static inline size_t thread_refusal(saltbalance_device device, saltbalance_shape s, size_t thread) {
    if (thread >= s.threads) {
        return SALTBALANCE_NO_THREAD;
    }
    return device.running == thread + 1 ? 0 : SALTBALANCE_NOT_RUNNING;
}

#endif

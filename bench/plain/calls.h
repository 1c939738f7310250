/* The threads' tables: a call for each thread, and the queue of those that wait. */
#ifndef PLAIN_CALLS_H
#define PLAIN_CALLS_H

#include "shape.h"

#include <string.h>

/* The stages of a call, and the kinds of wait. */
enum { CLOSED = 0, ASKED = 1, FOUND = 2, DIVIDING = 3, RELEASING = 4, WAITING = 5 };
enum { NEVER = 0, FOREVER = 1, TIMED = 2 };

/* The longest wait in milliseconds and in ticks, and the milliseconds of a tick. */
enum { LONGEST_WAIT = 600000, LONGEST_TICKS = 60000, TICK = 10 };

/* A thread's six cells. The level is the found one, or that of the block in hand. */
typedef struct call {
    uint64_t stage, size, wait, deadline, level, block;
} call;

/* How many cells a call takes in its table. */
enum { CELLS = sizeof(call) / sizeof(uint64_t) };

static const call closed_call = {CLOSED, 0, 0, 0, 0, 0};

/* A thread that the queue names becomes ready and asks again. */
static inline void wake(call *calls, size_t thread) { calls[thread].stage = ASKED; }

/* Everybody who waits becomes ready, and the queue is empty; answers their number. */
static inline size_t wake_all(call *calls, uint8_t *queue) {
    size_t woken = queue[0];
    for (size_t i = 1; i <= woken; i++) {
        wake(calls, queue[i]);
    }
    memset(queue, 0, woken + 1);
    return woken;
}

/* Those who wait until this time become ready and leave the queue; answers their number. */
static inline size_t wake_due(call *calls, uint8_t *queue, uint64_t clock) {
    size_t end = queue[0];
    size_t kept = 0;
    for (size_t i = 1; i <= end; i++) {
        uint8_t thread = queue[i];
        queue[i] = 0;
        if (calls[thread].wait == TIMED && calls[thread].deadline == clock) {
            wake(calls, thread);
        } else {
            queue[++kept] = thread;
        }
    }
    queue[0] = (uint8_t)kept;
    return end - kept;
}

/* A thread joins the queue's end. */
static inline void join(uint8_t *queue, size_t thread) {
    queue[0]++;
    queue[queue[0]] = (uint8_t)thread;
}

#endif

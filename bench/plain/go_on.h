/* Go on, on valid tables: the step of the call's stage. */
#ifndef PLAIN_GO_ON_H
#define PLAIN_GO_ON_H

#include "steps_release.h"
#include "steps_take.h"

static inline answer go_on_step(saltbalance_device *device, shape s, uint8_t *states, uint8_t *owners, uint16_t *lists, call *calls,
                                uint8_t *queue, size_t thread) {
    size_t refusal = thread_refusal(*device, s, thread);
    if (refusal != 0) {
        return bare(refusal);
    }
    call *c = calls + thread;
    switch (c->stage) {
    case CLOSED:
        return bare(SALTBALANCE_NO_CALL);
    case ASKED:
        return look(device, s, lists, c, queue, thread);
    case FOUND:
        return take(s, states, lists, c);
    case DIVIDING:
        return divide(s, states, owners, lists, c, thread);
    default:
        return release(s, states, lists, calls, c, queue);
    }
}

#endif

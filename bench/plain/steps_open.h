/* The steps that open a call, switch threads or raise the clock, on valid tables. */
#ifndef PLAIN_STEPS_OPEN_H
#define PLAIN_STEPS_OPEN_H

#include "answers.h"
#include "calls.h"

/* Ask: the call becomes asked. */
static inline answer ask_step(saltbalance_device device, shape s, call *calls, size_t thread, size_t size, int32_t wait) {
    size_t refusal = thread_refusal(device, s, thread);
    if (refusal != 0) {
        return bare(refusal);
    }
    if (calls[thread].stage != CLOSED) {
        return bare(SALTBALANCE_CALL_OPEN);
    }
    if (size > s.top_size) {
        return bare(SALTBALANCE_SIZE_ABOVE_TOP);
    }
    if (wait < -1 || wait > LONGEST_WAIT) {
        return bare(SALTBALANCE_WAIT_OUTSIDE);
    }
    call asked = {.stage = ASKED, .size = size, .wait = wait == 0 ? NEVER : FOREVER};
    if (wait > 0) {
        asked.wait = TIMED;
        asked.deadline = (uint64_t)device.clock + ((uint32_t)wait + TICK - 1) / TICK;
    }
    calls[thread] = asked;
    return bare(SALTBALANCE_OPENED);
}

/* Give back: the block becomes FREEING without owner, the call releasing. */
static inline answer give_step(saltbalance_device device, shape s, uint8_t *states, uint8_t *owners, call *calls, size_t thread,
                               size_t id) {
    size_t refusal = thread_refusal(device, s, thread);
    if (refusal != 0) {
        return bare(refusal);
    }
    if (calls[thread].stage != CLOSED) {
        return bare(SALTBALANCE_CALL_OPEN);
    }
    size_t level = SALTBALANCE_LEVEL(id), block = SALTBALANCE_BLOCK(id);
    if ((id & 255) != s.pool || level >= s.levels || block >= count_at(s, level)) {
        return bare(SALTBALANCE_ID_OUTSIDE);
    }
    size_t place = place_of(s, level, block);
    if (states[place] != SALTBALANCE_ALLOCATED) {
        return bare(SALTBALANCE_NOT_ALLOCATED);
    }
    if (owners[place] != thread + 1) {
        return bare(SALTBALANCE_NOT_OWNER);
    }
    states[place] = SALTBALANCE_FREEING;
    owners[place] = 0;
    calls[thread] = (call){.stage = RELEASING, .level = level, .block = block};
    return bare(SALTBALANCE_OPENED);
}

/* Switch: that thread runs. */
static inline answer switch_step(saltbalance_device *device, shape s, const call *calls, size_t thread) {
    if (thread >= s.threads) {
        return bare(SALTBALANCE_NO_THREAD);
    }
    if (calls[thread].stage == WAITING) {
        return bare(SALTBALANCE_IS_BLOCKED);
    }
    device->running = (uint32_t)thread + 1;
    return bare(SALTBALANCE_SWITCHED);
}

/* Tick: the clock rises, and who waited until now is ready. */
static inline answer tick_step(saltbalance_device *device, call *calls, uint8_t *queue) {
    if (device->clock == UINT32_MAX) {
        return bare(SALTBALANCE_CLOCK_AT_END);
    }
    device->clock++;
    return detailed(SALTBALANCE_TICKED, wake_due(calls, queue, device->clock));
}

#endif

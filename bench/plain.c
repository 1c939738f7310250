/*
 * The nine calls in plain C, written for speed: the same tables, the same check in front of each call but build, the same step, the same
 * answers. The check and the steps stand in the folder plain.
 */
#include "plain.h"

#include "plain/check.h"
#include "plain/fresh.h"
#include "plain/go_on.h"
#include "plain/questions.h"
#include "plain/steps_open.h"

/* The lengths as they are lent, under the names that all nine calls have. */
#define LENGTHS ((lengths){states_length, owners_length, lists_length, calls_length, queue_length})

/* The calls' cells as calls: a call is six cells of the table. */
#define CALLS ((call *)calls)
#define CALLS_READ ((const call *)calls)

/* The check, on the tables as they are lent. */
#define CHECKED(device) refusal_of(device, s, states, owners, lists, CALLS_READ, queue, LENGTHS)

saltbalance_answer plain_build(saltbalance_device *device, saltbalance_shape s, uint8_t *states, size_t states_length, uint8_t *owners,
                               size_t owners_length, uint16_t *lists, size_t lists_length, uint64_t *calls, size_t calls_length,
                               uint8_t *queue, size_t queue_length) {
    size_t refusal = shape_refusal(s, LENGTHS);
    if (refusal != 0) {
        return bare(refusal);
    }
    make_fresh(s, states, owners, lists, CALLS, queue);
    *device = (saltbalance_device){0, 0};
    return bare(SALTBALANCE_BUILT);
}

saltbalance_answer plain_ask(saltbalance_device device, saltbalance_shape s, const uint8_t *states, size_t states_length,
                             const uint8_t *owners, size_t owners_length, const uint16_t *lists, size_t lists_length, uint64_t *calls,
                             size_t calls_length, const uint8_t *queue, size_t queue_length, size_t thread, size_t size, int32_t wait) {
    size_t refusal = CHECKED(device);
    return refusal != 0 ? bare(refusal) : ask_step(device, s, CALLS, thread, size, wait);
}

saltbalance_answer plain_go_on(saltbalance_device *device, saltbalance_shape s, uint8_t *states, size_t states_length, uint8_t *owners,
                               size_t owners_length, uint16_t *lists, size_t lists_length, uint64_t *calls, size_t calls_length,
                               uint8_t *queue, size_t queue_length, size_t thread) {
    size_t refusal = CHECKED(*device);
    return refusal != 0 ? bare(refusal) : go_on_step(device, s, states, owners, lists, CALLS, queue, thread);
}

saltbalance_answer plain_give_back(saltbalance_device device, saltbalance_shape s, uint8_t *states, size_t states_length, uint8_t *owners,
                                   size_t owners_length, const uint16_t *lists, size_t lists_length, uint64_t *calls, size_t calls_length,
                                   const uint8_t *queue, size_t queue_length, size_t thread, size_t id) {
    size_t refusal = CHECKED(device);
    return refusal != 0 ? bare(refusal) : give_step(device, s, states, owners, CALLS, thread, id);
}

saltbalance_answer plain_switch(saltbalance_device *device, saltbalance_shape s, const uint8_t *states, size_t states_length,
                                const uint8_t *owners, size_t owners_length, const uint16_t *lists, size_t lists_length,
                                const uint64_t *calls, size_t calls_length, const uint8_t *queue, size_t queue_length, size_t thread) {
    size_t refusal = CHECKED(*device);
    return refusal != 0 ? bare(refusal) : switch_step(device, s, CALLS_READ, thread);
}

saltbalance_answer plain_tick(saltbalance_device *device, saltbalance_shape s, const uint8_t *states, size_t states_length,
                              const uint8_t *owners, size_t owners_length, const uint16_t *lists, size_t lists_length, uint64_t *calls,
                              size_t calls_length, uint8_t *queue, size_t queue_length) {
    size_t refusal = CHECKED(*device);
    return refusal != 0 ? bare(refusal) : tick_step(device, CALLS, queue);
}

saltbalance_answer plain_whole(saltbalance_device device, saltbalance_shape s, const uint8_t *states, size_t states_length,
                               const uint8_t *owners, size_t owners_length, const uint16_t *lists, size_t lists_length,
                               const uint64_t *calls, size_t calls_length, const uint8_t *queue, size_t queue_length) {
    size_t refusal = CHECKED(device);
    return refusal != 0 ? bare(refusal) : whole_of(s, states, CALLS_READ);
}

saltbalance_covered plain_cover(saltbalance_device device, saltbalance_shape s, const uint8_t *states, size_t states_length,
                                const uint8_t *owners, size_t owners_length, const uint16_t *lists, size_t lists_length,
                                const uint64_t *calls, size_t calls_length, const uint8_t *queue, size_t queue_length, size_t offset) {
    size_t refusal = CHECKED(device);
    return refusal != 0 ? (saltbalance_covered){refusal, 0, 0} : cover_of(s, states, offset);
}

saltbalance_mapped plain_map(saltbalance_device device, saltbalance_shape s, const uint8_t *states, size_t states_length,
                             const uint8_t *owners, size_t owners_length, const uint16_t *lists, size_t lists_length, const uint64_t *calls,
                             size_t calls_length, const uint8_t *queue, size_t queue_length, uint32_t *row, size_t row_length) {
    size_t refusal = CHECKED(device);
    return refusal != 0 ? (saltbalance_mapped){refusal, 0} : map_of(s, states, row, row_length);
}

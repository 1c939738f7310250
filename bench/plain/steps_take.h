/* The steps of a call that takes a block, on valid tables: look, take, split and grant. */
#ifndef PLAIN_STEPS_TAKE_H
#define PLAIN_STEPS_TAKE_H

#include "answers.h"
#include "calls.h"
#include "lists.h"

/* No level has room: the call ends, or its thread joins the queue's end, blocked, and nobody runs. */
static inline answer no_room(saltbalance_device *device, call *c, uint8_t *queue, size_t thread) {
    if (c->wait == NEVER) {
        *c = closed_call;
        return bare(SALTBALANCE_NO_ROOM);
    }
    if (c->wait == TIMED && c->deadline == device->clock) {
        *c = closed_call;
        return bare(SALTBALANCE_TIMED_OUT);
    }
    c->stage = WAITING;
    join(queue, thread);
    device->running = 0;
    return bare(SALTBALANCE_WAITING);
}

/* Look: a timed call past its deadline ends; otherwise the deepest level with room is found. */
static inline answer look(saltbalance_device *device, shape s, const uint16_t *lists, call *c, uint8_t *queue, size_t thread) {
    if (c->wait == TIMED && c->deadline < device->clock) {
        *c = closed_call;
        return bare(SALTBALANCE_TIMED_OUT);
    }
    for (size_t level = level_for(s, c->size) + 1; level-- > 0;) {
        if (lists[level] != 0) {
            c->stage = FOUND;
            c->level = level;
            return detailed(SALTBALANCE_FOUND, level);
        }
    }
    return no_room(device, c, queue, thread);
}

/* Take: the first of the found level's list becomes ALLOCATING and in hand; if the list has emptied, the call is asked again. */
static inline answer take(shape s, uint8_t *states, uint16_t *lists, call *c) {
    size_t level = c->level;
    if (lists[level] == 0) {
        c->stage = ASKED;
        c->level = 0;
        return bare(SALTBALANCE_AGAIN);
    }
    size_t block = take_first(s, lists, level);
    states[place_of(s, level, block)] = SALTBALANCE_ALLOCATING;
    *c = (call){.stage = DIVIDING, .size = c->size, .level = level, .block = block};
    return detailed(SALTBALANCE_TAKEN, id_of(s, level, block));
}

/* Split: the block becomes DIVIDED, its first quarter ALLOCATING and in hand, the others FREE and listed. */
static inline answer split(shape s, uint8_t *states, uint16_t *lists, call *c) {
    size_t level = c->level + 1, first = 4 * c->block;
    uint8_t *quarters = states + place_of(s, level, first);
    states[place_of(s, c->level, c->block)] = SALTBALANCE_DIVIDED;
    quarters[0] = SALTBALANCE_ALLOCATING;
    for (size_t j = 1; j < 4; j++) {
        quarters[j] = SALTBALANCE_FREE;
        append(s, lists, level, first + j);
    }
    c->level = level;
    c->block = first;
    return detailed(SALTBALANCE_SPLIT, id_of(s, level, first));
}

/* Divide: split above the target; at it the block becomes ALLOCATED with its owner, and the call closes. */
static inline answer divide(shape s, uint8_t *states, uint8_t *owners, uint16_t *lists, call *c, size_t thread) {
    if (c->level < level_for(s, c->size)) {
        return split(s, states, lists, c);
    }
    size_t place = place_of(s, c->level, c->block), id = id_of(s, c->level, c->block);
    states[place] = SALTBALANCE_ALLOCATED;
    owners[place] = (uint8_t)(thread + 1);
    *c = closed_call;
    return detailed(SALTBALANCE_GRANTED, id);
}

#endif

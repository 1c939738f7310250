/*
 * The nine calls by name, so that a check can be made of each; and a history of them by chance.
 */
#ifndef CALLS_H
#define CALLS_H

#include "saltbalance_pool.h"

/* The calls. */
typedef enum name { BUILD, ASK, GO_ON, GIVE_BACK, SWITCH, TICK, WHOLE, COVER, MAP, NAMES } name;

static const char *const words[NAMES] = {"build", "ask", "go on", "give back", "switch", "tick", "whole", "cover", "map"};

/* The numbers that calls take besides the tables. */
typedef struct numbers {
    size_t thread, size, id, offset;
    int32_t wait;
} numbers;

/* Makes a call. Answers the number of its answer, or of its refusal; 0 for a cover or a map that is not refused. */
static inline size_t make_call(name call, saltbalance_pool *p, uint32_t *row, size_t row_length, numbers n) {
    switch (call) {
    case BUILD: return saltbalance_pool_build(p).number;
    case ASK: return saltbalance_pool_ask(p, n.thread, n.size, n.wait).number;
    case GO_ON: return saltbalance_pool_go_on(p, n.thread).number;
    case GIVE_BACK: return saltbalance_pool_give_back(p, n.thread, n.id).number;
    case SWITCH: return saltbalance_pool_switch(p, n.thread).number;
    case TICK: return saltbalance_pool_tick(p).number;
    case WHOLE: return saltbalance_pool_whole(p).number;
    case COVER: return saltbalance_pool_cover(p, n.offset).refusal;
    default: return saltbalance_pool_map(p, row, row_length).refusal;
    }
}

/* A number below a bound, by chance. */
static inline size_t chance(uint32_t *seed, size_t below) {
    *seed ^= *seed << 13, *seed ^= *seed >> 17, *seed ^= *seed << 5;
    return *seed % below;
}

/* The id of a block that this thread holds, by chance; one that is outside every pool where it holds none. */
static inline size_t held_block(const saltbalance_pool *p, size_t thread, uint32_t *seed) {
    size_t place = 0, seen = 0, id = SIZE_MAX;
    for (size_t level = 0; level < p->shape.levels; level++) {
        for (size_t block = 0; block < p->shape.tops * SALTBALANCE_IN_A_TOP(level); block++) {
            if (p->owners[place++] == thread + 1 && chance(seed, ++seen) == 0) {
                id = SALTBALANCE_ID(p->shape.pool, level, block);
            }
        }
    }
    return id;
}

/* The next call of a history on valid tables, and its numbers, by chance: the running thread goes on with its call, or opens one; now and
 * then another thread runs, the clock rises, or a question is asked. Where all threads wait, the clock rises or the pool is built anew. */
static inline name next_call(const saltbalance_pool *p, uint32_t *seed, numbers *n) {
    static const name seldom[] = {SWITCH, SWITCH, SWITCH, TICK, WHOLE, COVER, MAP};
    n->thread = chance(seed, p->shape.threads);
    n->offset = chance(seed, p->shape.tops * p->shape.top_size);
    if (p->queue[0] == p->shape.threads) {
        return chance(seed, 8) == 0 ? BUILD : TICK;
    }
    if (p->device.running == 0) {
        return SWITCH;
    }
    if (chance(seed, 4) == 0) {
        return seldom[chance(seed, sizeof seldom / sizeof seldom[0])];
    }
    n->thread = p->device.running - 1;
    if (p->calls[SALTBALANCE_CALLS(n->thread)] != 0) {
        return GO_ON;
    }
    n->size = 1 + chance(seed, p->shape.top_size / SALTBALANCE_IN_A_TOP(chance(seed, p->shape.levels)));
    n->wait = (int32_t)chance(seed, 6) * 10 - 10;
    n->wait = n->wait < 0 ? SALTBALANCE_FOREVER : n->wait;
    n->id = held_block(p, n->thread, seed);
    return n->id == SIZE_MAX || chance(seed, 2) == 0 ? ASK : GIVE_BACK;
}

#endif

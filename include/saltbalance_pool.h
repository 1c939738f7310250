/*
 * A pool in one hand: a struct that holds the shape, the record, the tables and where the buffers start; the calls of saltbalance.h on
 * it; where a block lies; the answers in words; and what a light or a support line shows.
 *
 * The calls of saltbalance.h are proved. What this header adds is plain C and is not: it is compared with the archive by
 * examples/c/shown.c.
 */
#ifndef SALTBALANCE_POOL_H
#define SALTBALANCE_POOL_H

#include "saltbalance.h"

typedef struct saltbalance_pool {
    saltbalance_shape shape;
    saltbalance_device device;
    uint8_t *states;
    uint8_t *owners;
    uint16_t *lists;
    uint64_t *calls;
    uint8_t *queue;
    saltbalance_lengths lengths;
    uint8_t *memory; /* where the buffers start: tops * top_size bytes; or NULL */
} saltbalance_pool;

/* Defines a static pool of this name with its tables; the numbers are constants. Then saltbalance_pool_build makes it a fresh pool. */
#define SALTBALANCE_POOL(name, memory, pool, threads, levels, tops, top_size)                                                          \
    static uint8_t name##_states[SALTBALANCE_STATES(levels, tops)];                                                                    \
    static uint8_t name##_owners[SALTBALANCE_OWNERS(levels, tops)];                                                                    \
    static uint16_t name##_lists[SALTBALANCE_LISTS(levels, tops)];                                                                     \
    static uint64_t name##_calls[SALTBALANCE_CALLS(threads)];                                                                          \
    static uint8_t name##_queue[SALTBALANCE_QUEUE(threads)];                                                                           \
    static saltbalance_pool name = {{pool, threads, levels, tops, top_size},                                                           \
                                    {0, 0},                                                                                            \
                                    name##_states,                                                                                     \
                                    name##_owners,                                                                                     \
                                    name##_lists,                                                                                      \
                                    name##_calls,                                                                                      \
                                    name##_queue,                                                                                      \
                                    {SALTBALANCE_STATES(levels, tops), SALTBALANCE_OWNERS(levels, tops),                               \
                                     SALTBALANCE_LISTS(levels, tops), SALTBALANCE_CALLS(threads), SALTBALANCE_QUEUE(threads)},         \
                                    memory}

/* ---- The calls, as in saltbalance.h ------------------------------------------------------------------------------------------- */

/* The tables of a pool as a call takes them. */
#define SALTBALANCE_LENT(p)                                                                                                            \
    (p)->states, (p)->lengths.states, (p)->owners, (p)->lengths.owners, (p)->lists, (p)->lengths.lists, (p)->calls,                    \
        (p)->lengths.calls, (p)->queue, (p)->lengths.queue

static inline saltbalance_answer saltbalance_pool_build(saltbalance_pool *p) {
    return saltbalance_build(&p->device, p->shape, SALTBALANCE_LENT(p));
}

static inline saltbalance_answer saltbalance_pool_ask(saltbalance_pool *p, size_t thread, size_t size, int32_t wait) {
    return saltbalance_ask(p->device, p->shape, SALTBALANCE_LENT(p), thread, size, wait);
}

static inline saltbalance_answer saltbalance_pool_go_on(saltbalance_pool *p, size_t thread) {
    return saltbalance_go_on(&p->device, p->shape, SALTBALANCE_LENT(p), thread);
}

/* Whether a call stays open after a step of its own with this answer. */
static inline int saltbalance_stays_open(size_t number) {
    return number == SALTBALANCE_OPENED || number == SALTBALANCE_FOUND || number == SALTBALANCE_AGAIN || number == SALTBALANCE_TAKEN ||
           number == SALTBALANCE_SPLIT || number == SALTBALANCE_WAITING || number == SALTBALANCE_MERGED;
}

/* Goes on until the thread's call ends or waits, and answers that last step: GRANTED, SETTLED, WAITING or a refusal. */
static inline saltbalance_answer saltbalance_pool_go_on_to_end(saltbalance_pool *p, size_t thread) {
    saltbalance_answer step;
    do {
        step = saltbalance_pool_go_on(p, thread);
    } while (saltbalance_stays_open(step.number) && step.number != SALTBALANCE_WAITING);
    return step;
}

static inline saltbalance_answer saltbalance_pool_give_back(saltbalance_pool *p, size_t thread, size_t id) {
    return saltbalance_give_back(p->device, p->shape, SALTBALANCE_LENT(p), thread, id);
}

static inline saltbalance_answer saltbalance_pool_switch(saltbalance_pool *p, size_t thread) {
    return saltbalance_switch(&p->device, p->shape, SALTBALANCE_LENT(p), thread);
}

static inline saltbalance_answer saltbalance_pool_tick(saltbalance_pool *p) {
    return saltbalance_tick(&p->device, p->shape, SALTBALANCE_LENT(p));
}

static inline saltbalance_answer saltbalance_pool_whole(const saltbalance_pool *p) {
    return saltbalance_whole(p->device, p->shape, SALTBALANCE_LENT(p));
}

static inline saltbalance_covered saltbalance_pool_cover(const saltbalance_pool *p, size_t offset) {
    return saltbalance_cover(p->device, p->shape, SALTBALANCE_LENT(p), offset);
}

static inline saltbalance_mapped saltbalance_pool_map(const saltbalance_pool *p, uint32_t *row, size_t row_length) {
    return saltbalance_map(p->device, p->shape, SALTBALANCE_LENT(p), row, row_length);
}

/* ---- Where a block lies ------------------------------------------------------------------------------------------------------- */

/* How many bytes the block with this id has; 0 where the id is outside this pool. The tables are not looked at. */
static inline size_t saltbalance_pool_size(const saltbalance_pool *p, size_t id) {
    if (SALTBALANCE_POOL_NUMBER(id) != p->shape.pool || SALTBALANCE_LEVEL(id) >= p->shape.levels ||
        SALTBALANCE_BLOCK(id) >= p->shape.tops * SALTBALANCE_IN_A_TOP(SALTBALANCE_LEVEL(id))) {
        return 0;
    }
    return SALTBALANCE_SIZE(id, p->shape.top_size);
}

/* Where the block with this id starts, in bytes from the first block; SIZE_MAX where the id is outside this pool. */
static inline size_t saltbalance_pool_offset(const saltbalance_pool *p, size_t id) {
    return saltbalance_pool_size(p, id) == 0 ? SIZE_MAX : SALTBALANCE_OFFSET(id, p->shape.top_size);
}

/* Where the block with this id starts in the memory; NULL where the id is outside this pool or the pool has no memory. */
static inline uint8_t *saltbalance_pool_pointer(const saltbalance_pool *p, size_t id) {
    return p->memory == NULL || saltbalance_pool_size(p, id) == 0 ? NULL : p->memory + saltbalance_pool_offset(p, id);
}

/* The undivided block over the byte at this pointer, as cover answers it: OFFSET_OUTSIDE for a pointer outside the memory. */
static inline saltbalance_covered saltbalance_pool_cover_pointer(const saltbalance_pool *p, const void *pointer) {
    return saltbalance_pool_cover(p, p->memory == NULL ? SIZE_MAX : (size_t)((uintptr_t)pointer - (uintptr_t)p->memory));
}

/* ---- Words -------------------------------------------------------------------------------------------------------------------- */

/* The words for the number of an answer or of a refusal; those of 0 are "not refused". */
static inline const char *saltbalance_word(size_t number) {
    switch (number) {
    case 0: return "not refused";
    case SALTBALANCE_SHAPE_NOT_ALLOWED: return "shape not allowed";
    case SALTBALANCE_WRONG_LENGTH: return "a lent table has the wrong length";
    case SALTBALANCE_NOT_VALID: return "tables are no valid state";
    case SALTBALANCE_NO_THREAD: return "no such thread";
    case SALTBALANCE_NOT_RUNNING: return "thread is not running";
    case SALTBALANCE_IS_BLOCKED: return "thread is blocked";
    case SALTBALANCE_CALL_OPEN: return "a call is open";
    case SALTBALANCE_NO_CALL: return "no call is open";
    case SALTBALANCE_SIZE_ABOVE_TOP: return "size above the top size";
    case SALTBALANCE_WAIT_OUTSIDE: return "wait outside its limits";
    case SALTBALANCE_ID_OUTSIDE: return "id outside this pool";
    case SALTBALANCE_NOT_ALLOCATED: return "block not allocated";
    case SALTBALANCE_NOT_OWNER: return "another thread's block";
    case SALTBALANCE_NO_ROOM: return "no room";
    case SALTBALANCE_TIMED_OUT: return "timed out";
    case SALTBALANCE_CLOCK_AT_END: return "clock at its end";
    case SALTBALANCE_BAD_RECORD: return "script record bad";
    case SALTBALANCE_OFFSET_OUTSIDE: return "offset outside the pool";
    case SALTBALANCE_ROW_TOO_SHORT: return "row shorter than the map";
    case SALTBALANCE_OPENED: return "opened";
    case SALTBALANCE_FOUND: return "found";
    case SALTBALANCE_AGAIN: return "again";
    case SALTBALANCE_TAKEN: return "taken";
    case SALTBALANCE_SPLIT: return "split";
    case SALTBALANCE_GRANTED: return "granted";
    case SALTBALANCE_WAITING: return "waiting";
    case SALTBALANCE_MERGED: return "merged";
    case SALTBALANCE_SETTLED: return "settled";
    case SALTBALANCE_SWITCHED: return "switched";
    case SALTBALANCE_TICKED: return "ticked";
    case SALTBALANCE_WHOLE: return "whole";
    case SALTBALANCE_NOT_WHOLE: return "not whole";
    case SALTBALANCE_BUILT: return "built";
    default: return "no such answer";
    }
}

/* ---- What a light or a support line shows ------------------------------------------------------------------------------------- */

/* Each begins with saltbalance_whole, which checks the tables; where that refuses, it answers the refusal, and zeros. Then it goes over
 * tables once. A refusal of 0 says that the tables are valid and the answer is theirs. */

/* The refusal of whole, or 0. */
static inline size_t saltbalance_pool_refusal(const saltbalance_pool *p) {
    size_t number = saltbalance_pool_whole(p).number;
    return number == SALTBALANCE_WHOLE || number == SALTBALANCE_NOT_WHOLE ? 0 : number;
}

/* The bytes of the undivided blocks in each state, DIVIDED and NOEXIST being 0; together they are the pool's. */
typedef struct saltbalance_bytes {
    size_t refusal;
    size_t in_state[SALTBALANCE_MOST_STATE + 1]; /* in_state[SALTBALANCE_FREE]: the free bytes */
} saltbalance_bytes;

static inline saltbalance_bytes saltbalance_pool_bytes(const saltbalance_pool *p) {
    saltbalance_bytes bytes = {saltbalance_pool_refusal(p), {0}};
    size_t place = 0;
    for (size_t level = 0; bytes.refusal == 0 && level < p->shape.levels; level++) {
        for (size_t block = 0; block < p->shape.tops * SALTBALANCE_IN_A_TOP(level); block++) {
            bytes.in_state[p->states[place++]] += SALTBALANCE_LEVEL_SIZE(level, p->shape.top_size);
        }
    }
    bytes.in_state[SALTBALANCE_DIVIDED] = 0;
    bytes.in_state[SALTBALANCE_NOEXIST] = 0;
    return bytes;
}

/* A number of bytes. */
typedef struct saltbalance_counted {
    size_t refusal;
    size_t bytes;
} saltbalance_counted;

/* The largest size that would be granted now to a running thread with no call open that may not wait, if no other step comes between; 0
 * where no block is FREE. It is the size of the first level with a FREE block. */
static inline saltbalance_counted saltbalance_pool_largest(const saltbalance_pool *p) {
    saltbalance_counted largest = {saltbalance_pool_refusal(p), 0};
    for (size_t level = 0; largest.refusal == 0 && largest.bytes == 0 && level < p->shape.levels; level++) {
        largest.bytes = p->lists[level] == 0 ? 0 : SALTBALANCE_LEVEL_SIZE(level, p->shape.top_size);
    }
    return largest;
}

/* The bytes of the ALLOCATED blocks that this thread owns; 0 where there is no such thread. A block still in its hand is not among them. */
static inline saltbalance_counted saltbalance_pool_held(const saltbalance_pool *p, size_t thread) {
    saltbalance_counted held = {saltbalance_pool_refusal(p), 0};
    size_t place = 0;
    for (size_t level = 0; held.refusal == 0 && thread < p->shape.threads && level < p->shape.levels; level++) {
        for (size_t block = 0; block < p->shape.tops * SALTBALANCE_IN_A_TOP(level); block++) {
            held.bytes += p->owners[place++] == thread + 1 ? SALTBALANCE_LEVEL_SIZE(level, p->shape.top_size) : 0;
        }
    }
    return held;
}

/* Who keeps a pool from being whole. */
enum {
    SALTBALANCE_NOBODY = 0,     /* it is whole, or refused */
    SALTBALANCE_OPEN_CALL = 1,  /* thread: the lowest with a call open */
    SALTBALANCE_HELD_BLOCK = 2  /* no call is open; id: the first ALLOCATED block by level and number; thread: its owner */
};

typedef struct saltbalance_keeper {
    size_t refusal;
    size_t keeper;
    size_t thread;
    size_t id;
} saltbalance_keeper;

static inline saltbalance_keeper saltbalance_pool_keeper(const saltbalance_pool *p) {
    saltbalance_keeper none = {saltbalance_pool_refusal(p), SALTBALANCE_NOBODY, 0, 0};
    size_t place = 0;
    for (size_t thread = 0; none.refusal == 0 && thread < p->shape.threads; thread++) {
        if (p->calls[SALTBALANCE_CALLS(thread)] != 0) { /* its stage: 0 is closed */
            saltbalance_keeper call = {0, SALTBALANCE_OPEN_CALL, thread, 0};
            return call;
        }
    }
    for (size_t level = 0; none.refusal == 0 && level < p->shape.levels; level++) {
        for (size_t block = 0; block < p->shape.tops * SALTBALANCE_IN_A_TOP(level); block++, place++) {
            if (p->states[place] == SALTBALANCE_ALLOCATED) {
                saltbalance_keeper held = {0, SALTBALANCE_HELD_BLOCK, p->owners[place] - (size_t)1,
                                           SALTBALANCE_ID(p->shape.pool, level, block)};
                return held;
            }
        }
    }
    return none;
}

#endif

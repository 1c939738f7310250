/*
 * Saltbalance: a memory pool for firmware, every function of which is proved.
 *
 * The pool keeps no memory of its own. The caller keeps five tables and one record, and lends them to each call. No call has a
 * precondition on numbers or contents: wrong lengths, wrong contents, a table that somebody wrote into, any number whatever give the
 * listed refusal, and a refusal alters nothing (but SALTBALANCE_NO_ROOM and SALTBALANCE_TIMED_OUT, which close the asker's own call).
 * What C itself asks remains: a pointer with length n points to n elements that are readable (writable where not const), the tables and
 * the record of one call do not overlap, a pointer with length 0 may be anything, NULL too, and the record's pointer is never NULL.
 *
 * A buffer is taken step by step, so that no call holds the processor for long: `ask` opens a call, `go_on` makes its next step until it
 * answers SALTBALANCE_GRANTED, SALTBALANCE_NO_ROOM or SALTBALANCE_TIMED_OUT. A buffer goes home likewise: `give_back` opens a call,
 * `go_on` makes its steps until it answers SALTBALANCE_SETTLED.
 *
 * One task calls at a time: guard the calls as any shared data is guarded. docs/FIRMWARE.md says how, and what the calls cost.
 */
#ifndef SALTBALANCE_H
#define SALTBALANCE_H

#include <stddef.h>
#include <stdint.h>

#ifdef __cplusplus
extern "C" {
#endif

/* ---- Shape -------------------------------------------------------------------------------------------------------------------- */

/* How many blocks of a level lie in one top block: each block splits into four. For level 1, this is how many parts a block has. */
#define SALTBALANCE_IN_A_TOP(level) ((size_t)1 << (2 * (level)))

/* The limits of a shape. The top size is a positive multiple of SALTBALANCE_IN_A_TOP(levels). */
#define SALTBALANCE_MOST_POOL 255
#define SALTBALANCE_MOST_THREADS 8
#define SALTBALANCE_MOST_LEVELS 5
#define SALTBALANCE_MOST_TOPS 16
#define SALTBALANCE_MOST_TOP_SIZE 65536

/* The shape of a pool: its number, how many threads use it, levels, top blocks, and the bytes of a top block. */
typedef struct saltbalance_shape {
    size_t pool;
    size_t threads;
    size_t levels;
    size_t tops;
    size_t top_size;
} saltbalance_shape;

/* The number of blocks of all levels, and the length of each table, in elements, for a shape that is allowed. */
#define SALTBALANCE_BLOCKS(levels, tops)                                                                                               \
    ((size_t)(tops) * ((SALTBALANCE_IN_A_TOP(levels) - 1) / (SALTBALANCE_IN_A_TOP(1) - 1)))
#define SALTBALANCE_STATES(levels, tops) SALTBALANCE_BLOCKS(levels, tops)
#define SALTBALANCE_OWNERS(levels, tops) SALTBALANCE_BLOCKS(levels, tops)
#define SALTBALANCE_LISTS(levels, tops) ((size_t)(levels) + SALTBALANCE_BLOCKS(levels, tops))
#define SALTBALANCE_CALLS(threads) ((size_t)6 * (size_t)(threads))
#define SALTBALANCE_QUEUE(threads) ((size_t)(threads) + 1)

/* The bytes of the five tables and the record together. */
#define SALTBALANCE_RAM(threads, levels, tops)                                                                                         \
    (SALTBALANCE_STATES(levels, tops) * sizeof(uint8_t) + SALTBALANCE_OWNERS(levels, tops) * sizeof(uint8_t) +                         \
     SALTBALANCE_LISTS(levels, tops) * sizeof(uint16_t) + SALTBALANCE_CALLS(threads) * sizeof(uint64_t) +                              \
     SALTBALANCE_QUEUE(threads) * sizeof(uint8_t) + sizeof(saltbalance_device))

/* The length of each table, as the archive says it. */
typedef struct saltbalance_lengths {
    size_t states, owners, lists, calls, queue;
} saltbalance_lengths;

/* An id's fields: the pool's number, the level, and the block's number in its level. Together they are the id again. */
#define SALTBALANCE_POOL_NUMBER(id) ((size_t)(id) & 255)
#define SALTBALANCE_LEVEL(id) (((size_t)(id) >> 8) & 15)
#define SALTBALANCE_BLOCK(id) ((size_t)(id) >> 12)
#define SALTBALANCE_ID(pool, level, block) ((size_t)(pool) | (size_t)(level) << 8 | (size_t)(block) << 12)

/* The bytes of a block of a level; those of the block with an id, and where it starts, counted from where the buffers start. */
#define SALTBALANCE_LEVEL_SIZE(level, top_size) ((size_t)(top_size) / SALTBALANCE_IN_A_TOP(level))
#define SALTBALANCE_SIZE(id, top_size) SALTBALANCE_LEVEL_SIZE(SALTBALANCE_LEVEL(id), top_size)
#define SALTBALANCE_OFFSET(id, top_size) (SALTBALANCE_BLOCK(id) * SALTBALANCE_SIZE(id, top_size))

/* ---- Record ------------------------------------------------------------------------------------------------------------------- */

/* The clock in ticks of 10 ms, and who runs: 0 for nobody, t + 1 for thread t. */
typedef struct saltbalance_device {
    uint32_t clock;
    uint32_t running;
} saltbalance_device;

/* ---- Stack -------------------------------------------------------------------------------------------------------------------- */

/* No call was seen to take more bytes of stack, its return address included, its arguments not; examples/c/stack.c measures it. */
#define SALTBALANCE_STACK 1200

/* ---- Waits -------------------------------------------------------------------------------------------------------------------- */

/* The waits that are no time, and the longest that is one, in milliseconds. */
#define SALTBALANCE_FOREVER (-1)
#define SALTBALANCE_NO_WAIT 0
#define SALTBALANCE_MOST_WAIT 600000

/* ---- Answers ------------------------------------------------------------------------------------------------------------------ */

/* A refusal. They are tried in this order, and the first that holds is given. */
enum {
    SALTBALANCE_SHAPE_NOT_ALLOWED = 1,
    SALTBALANCE_WRONG_LENGTH = 2,
    SALTBALANCE_NOT_VALID = 3,
    SALTBALANCE_NO_THREAD = 4,
    SALTBALANCE_NOT_RUNNING = 5,
    SALTBALANCE_IS_BLOCKED = 6,
    SALTBALANCE_CALL_OPEN = 7,
    SALTBALANCE_NO_CALL = 8,
    SALTBALANCE_SIZE_ABOVE_TOP = 9,
    SALTBALANCE_WAIT_OUTSIDE = 10,
    SALTBALANCE_ID_OUTSIDE = 11,
    SALTBALANCE_NOT_ALLOCATED = 12,
    SALTBALANCE_NOT_OWNER = 13,
    SALTBALANCE_NO_ROOM = 14,
    SALTBALANCE_TIMED_OUT = 15,
    SALTBALANCE_CLOCK_AT_END = 16,
    SALTBALANCE_BAD_RECORD = 17,
    SALTBALANCE_OFFSET_OUTSIDE = 18,
    SALTBALANCE_ROW_TOO_SHORT = 19
};

/* What a step did. */
enum {
    SALTBALANCE_OPENED = 40,
    SALTBALANCE_FOUND = 41,     /* detail: the found level */
    SALTBALANCE_AGAIN = 42,
    SALTBALANCE_TAKEN = 43,     /* detail: the id in hand */
    SALTBALANCE_SPLIT = 44,     /* detail: the id in hand */
    SALTBALANCE_GRANTED = 45,   /* detail: the id of the block, now held */
    SALTBALANCE_WAITING = 46,   /* the thread is blocked and nobody runs */
    SALTBALANCE_MERGED = 47,    /* detail: the id in hand */
    SALTBALANCE_SETTLED = 48,   /* detail: the number of threads woken */
    SALTBALANCE_SWITCHED = 49,
    SALTBALANCE_TICKED = 50,    /* detail: the number of threads woken */
    SALTBALANCE_WHOLE = 51,
    SALTBALANCE_NOT_WHOLE = 52,
    SALTBALANCE_BUILT = 53
};

/* Whether a number is that of a refusal: these are below those of all steps. */
static inline int saltbalance_is_refusal(size_t number) { return number != 0 && number < SALTBALANCE_OPENED; }

/* The states of a block, as `saltbalance_cover` tells them. */
enum {
    SALTBALANCE_ALLOCATED = 0,
    SALTBALANCE_FREE = 1,
    SALTBALANCE_DIVIDED = 2,
    SALTBALANCE_NOEXIST = 3,
    SALTBALANCE_FREEING = 4,
    SALTBALANCE_ALLOCATING = 5,
    SALTBALANCE_MOST_STATE = SALTBALANCE_ALLOCATING
};

/* An answer: a number of the two lists above, and its detail, 0 where none is named. */
typedef struct saltbalance_answer {
    size_t number;
    size_t detail;
} saltbalance_answer;

/* What cover answers: refusal 0, the block's id and its state; or a refusal, and zeros. */
typedef struct saltbalance_covered {
    size_t refusal;
    size_t id;
    size_t state;
} saltbalance_covered;

/* What map answers: refusal 0 and the number of ids written to the row; or a refusal, and zero. */
typedef struct saltbalance_mapped {
    size_t refusal;
    size_t blocks;
} saltbalance_mapped;

/* ---- Calls -------------------------------------------------------------------------------------------------------------------- */

/* The lengths of the tables to lend for a shape; all are 0 where the shape is not allowed. */
saltbalance_lengths saltbalance_lengths_of(saltbalance_shape shape);

/* The tables become those of a fresh pool, whatever they held: all bytes free, no call open, clock 0, nobody running. Answers BUILT, or
 * refuses with SHAPE_NOT_ALLOWED or WRONG_LENGTH. */
saltbalance_answer saltbalance_build(saltbalance_device *device, saltbalance_shape shape, uint8_t *states, size_t states_length,
                                     uint8_t *owners, size_t owners_length, uint16_t *lists, size_t lists_length, uint64_t *calls,
                                     size_t calls_length, uint8_t *queue, size_t queue_length);

/* The running thread asks for a block of at least `size` bytes (0: the smallest block). `wait` in milliseconds: 1 to
 * MOST_WAIT, or FOREVER or NO_WAIT. Answers OPENED: now `go_on`. Refuses with 1 to 5, CALL_OPEN, SIZE_ABOVE_TOP or WAIT_OUTSIDE. */
saltbalance_answer saltbalance_ask(saltbalance_device device, saltbalance_shape shape, const uint8_t *states, size_t states_length,
                                   const uint8_t *owners, size_t owners_length, const uint16_t *lists, size_t lists_length,
                                   uint64_t *calls, size_t calls_length, const uint8_t *queue, size_t queue_length, size_t thread,
                                   size_t size, int32_t wait);

/* The running thread's call makes its next step, by its stage: FOUND, AGAIN, TAKEN, SPLIT, GRANTED or WAITING for an ask, MERGED or
 * SETTLED for a buffer that goes home. NO_ROOM and TIMED_OUT end the call. Other refusals: 1 to 5 and NO_CALL. */
saltbalance_answer saltbalance_go_on(saltbalance_device *device, saltbalance_shape shape, uint8_t *states, size_t states_length,
                                     uint8_t *owners, size_t owners_length, uint16_t *lists, size_t lists_length, uint64_t *calls,
                                     size_t calls_length, uint8_t *queue, size_t queue_length, size_t thread);

/* The running thread gives back the block with this id, which it holds. Answers OPENED: now `go_on` until SETTLED. Refuses with 1 to 5,
 * CALL_OPEN, ID_OUTSIDE, NOT_ALLOCATED or NOT_OWNER. */
saltbalance_answer saltbalance_give_back(saltbalance_device device, saltbalance_shape shape, uint8_t *states, size_t states_length,
                                         uint8_t *owners, size_t owners_length, const uint16_t *lists, size_t lists_length,
                                         uint64_t *calls, size_t calls_length, const uint8_t *queue, size_t queue_length,
                                         size_t thread, size_t id);

/* This thread runs from now on; the one before stays ready. Answers SWITCHED. Refuses with 1 to 4 or IS_BLOCKED. */
saltbalance_answer saltbalance_switch(saltbalance_device *device, saltbalance_shape shape, const uint8_t *states, size_t states_length,
                                      const uint8_t *owners, size_t owners_length, const uint16_t *lists, size_t lists_length,
                                      const uint64_t *calls, size_t calls_length, const uint8_t *queue, size_t queue_length,
                                      size_t thread);

/* The clock rises by one tick of 10 ms, and threads whose deadline it is are ready. Answers TICKED with their number. Refuses with 1 to
 * 3 or CLOCK_AT_END. */
saltbalance_answer saltbalance_tick(saltbalance_device *device, saltbalance_shape shape, const uint8_t *states, size_t states_length,
                                    const uint8_t *owners, size_t owners_length, const uint16_t *lists, size_t lists_length,
                                    uint64_t *calls, size_t calls_length, uint8_t *queue, size_t queue_length);

/* Has everything come home? Answers WHOLE exactly when all bytes are free and no thread has a call open, else NOT_WHOLE. Refuses with 1
 * to 3. Whole is not complete: a writer that was refused, timed out or has not asked yet holds nothing and has no call open. So a light
 * goes green only if the copy task knows of no unfinished piece and the pool, asked after it, is WHOLE (docs/FIRMWARE.md). */
saltbalance_answer saltbalance_whole(saltbalance_device device, saltbalance_shape shape, const uint8_t *states, size_t states_length,
                                     const uint8_t *owners, size_t owners_length, const uint16_t *lists, size_t lists_length,
                                     const uint64_t *calls, size_t calls_length, const uint8_t *queue, size_t queue_length);

/* The one undivided block over a byte of the pool, with its state. Refuses with 1 to 3 or OFFSET_OUTSIDE. */
saltbalance_covered saltbalance_cover(saltbalance_device device, saltbalance_shape shape, const uint8_t *states, size_t states_length,
                                      const uint8_t *owners, size_t owners_length, const uint16_t *lists, size_t lists_length,
                                      const uint64_t *calls, size_t calls_length, const uint8_t *queue, size_t queue_length,
                                      size_t offset);

/* The ids of all undivided blocks by address, into a row; places of the row behind them stay as they were. Refuses with 1 to 3 or
 * ROW_TOO_SHORT. A row of SALTBALANCE_BLOCKS elements is always long enough. */
saltbalance_mapped saltbalance_map(saltbalance_device device, saltbalance_shape shape, const uint8_t *states, size_t states_length,
                                   const uint8_t *owners, size_t owners_length, const uint16_t *lists, size_t lists_length,
                                   const uint64_t *calls, size_t calls_length, const uint8_t *queue, size_t queue_length, uint32_t *row,
                                   size_t row_length);

#ifdef __cplusplus
}
#endif

#endif

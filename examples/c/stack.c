/*
 * The stack that a call takes. Each call is made on a stack of its own that was painted before; what is no longer painted was used. So
 * every call is made, in histories by chance at small and large shapes, with calls of threads at every stage, and on damaged tables.
 * Counted are the return address and all below it, the C library's memset and memmove too; the arguments lie in the caller's frame.
 *
 * Prints the most bytes of each call at each shape. The program ends with status 1 if a call takes more than SALTBALANCE_STACK, or if an
 * answer has not come up.
 */
#define _XOPEN_SOURCE 700
#include "calls.h"

#include <stdio.h>
#include <stdlib.h>
#include <string.h>
#include <ucontext.h>

enum { STACK = 16384, PAINT = 0xA5, CODE = 4096, STEPS = 2000, DAMAGES = 100, SHAPES = 6 };
enum { MOST_BLOCKS = SALTBALANCE_BLOCKS(SALTBALANCE_MOST_LEVELS, SALTBALANCE_MOST_TOPS) };

static const saltbalance_shape shapes[SHAPES] = {
    {0, 1, 1, 1, 4},
    {1, 2, 2, 1, 64},
    {2, 3, 3, 4, 1024},
    {3, 8, 5, 2, 65536},
    {4, 8, 4, 16, 4096},
    {SALTBALANCE_MOST_POOL, SALTBALANCE_MOST_THREADS, SALTBALANCE_MOST_LEVELS, SALTBALANCE_MOST_TOPS, SALTBALANCE_MOST_TOP_SIZE},
};

/* A pool with room for the tables of any shape. */
SALTBALANCE_POOL(pool, NULL, 0, SALTBALANCE_MOST_THREADS, SALTBALANCE_MOST_LEVELS, SALTBALANCE_MOST_TOPS, SALTBALANCE_MOST_TOP_SIZE);
static uint32_t row[MOST_BLOCKS];

static uint64_t stack[STACK / sizeof(uint64_t)];
static ucontext_t outside, inside;
static const uint64_t *entered; /* the frame of the function that makes the call */

/* The call to be made on the painted stack, and what it answered. */
static struct { name call; numbers n; size_t answered; } wanted;

static size_t most[NAMES + 1][SHAPES];
static size_t seen[SALTBALANCE_BUILT + 1];

/* Runs on the painted stack: makes the call. */
static void on_painted(void) {
    entered = (const uint64_t *)__builtin_frame_address(0);
    wanted.answered = make_call(wanted.call, &pool, row, MOST_BLOCKS, wanted.n);
}

/* The same for the lengths of a shape. */
static void lengths_on_painted(void) {
    entered = (const uint64_t *)__builtin_frame_address(0);
    pool.lengths = saltbalance_lengths_of(pool.shape);
}

/* Runs a function on the painted stack, and answers how many bytes the call in it used: from the deepest that is not painted up to the
 * return address, which is the first word below the function's frame that points behind the start of its code. */
static size_t painted(void (*function)(void)) {
    memset(stack, PAINT, STACK);
    getcontext(&inside);
    inside.uc_stack.ss_sp = stack;
    inside.uc_stack.ss_size = STACK;
    inside.uc_link = &outside;
    makecontext(&inside, function, 0);
    swapcontext(&outside, &inside);
    const uint64_t paint = UINT64_MAX / UINT8_MAX * PAINT, *deepest = stack, *returns = entered;
    while (*deepest == paint) {
        deepest++;
    }
    while (*returns - (uintptr_t)function - 1 >= CODE) {
        returns--;
    }
    return (size_t)(returns + 1 - deepest) * sizeof(uint64_t);
}

/* Makes a call on the painted stack, and keeps its figure if it is the most. */
static void measure(size_t shape, name call, numbers n) {
    wanted.call = call;
    wanted.n = n;
    size_t bytes = painted(on_painted);
    most[call][shape] = bytes > most[call][shape] ? bytes : most[call][shape];
    seen[wanted.answered]++;
}

/* A history at a shape. */
static void history(size_t shape, uint32_t *seed) {
    pool.shape = shapes[shape];
    most[NAMES][shape] = painted(lengths_on_painted);
    measure(shape, BUILD, (numbers){0, 0, 0, 0, 0});
    for (int steps = 0; steps < STEPS; steps++) {
        numbers n = {0, 0, 0, 0, 0};
        name call = next_call(&pool, seed, &n);
        measure(shape, call, n);
    }
}

/* Every call but build on tables in which a byte was written over; a call that is not refused may change them further. */
static void damaged(size_t shape, uint32_t *seed) {
    uint8_t *const tables[] = {pool.states, pool.owners, (uint8_t *)pool.lists, (uint8_t *)pool.calls, pool.queue};
    const size_t bytes[] = {pool.lengths.states, pool.lengths.owners, 2 * pool.lengths.lists, 8 * pool.lengths.calls, pool.lengths.queue};
    for (int damages = 0; damages < DAMAGES; damages++) {
        size_t table = chance(seed, 5);
        uint8_t *byte = tables[table] + chance(seed, bytes[table]);
        uint8_t before = *byte;
        *byte = (uint8_t)chance(seed, 8);
        for (name call = ASK; call < NAMES; call++) {
            measure(shape, call, (numbers){0, 0, 0, 0, 0});
        }
        *byte = before;
    }
}

/* Prints a line of the table, and answers whether all its figures are at most the stated one. */
static int line(const char *what, const size_t *figures) {
    int held = 1;
    printf("%-12s", what);
    for (size_t shape = 0; shape < SHAPES; shape++) {
        printf("%8zu", figures[shape]);
        held = held && figures[shape] <= SALTBALANCE_STACK;
    }
    putchar('\n');
    return held;
}

int main(void) {
    uint32_t seed = 2463534242u;
    int held = 1;
    for (int pass = 0; pass < 2; pass++) { /* in the first pass the linker binds memset and memmove, which takes stack of its own */
        memset(most, 0, sizeof most);
        for (size_t shape = 0; shape < SHAPES; shape++) {
            history(shape, &seed);
            damaged(shape, &seed);
        }
    }
    printf("bytes of stack, by the number of blocks; SALTBALANCE_STACK is %d\n%-12s", SALTBALANCE_STACK, "");
    for (size_t shape = 0; shape < SHAPES; shape++) {
        printf("%8zu", SALTBALANCE_BLOCKS(shapes[shape].levels, shapes[shape].tops));
    }
    putchar('\n');
    for (name call = BUILD; call < NAMES; call++) {
        held = line(words[call], most[call]) && held;
    }
    held = line("lengths of", most[NAMES]) && held;
    for (size_t number = SALTBALANCE_OPENED; number <= SALTBALANCE_BUILT; number++) {
        if (seen[number] == 0) {
            printf("no step answered: %s\n", saltbalance_word(number));
            held = 0;
        }
    }
    return held ? EXIT_SUCCESS : EXIT_FAILURE;
}

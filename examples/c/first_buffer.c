/*
 * The first buffer: build a pool, take a buffer from it, use it, and give it back.
 *
 * Each step is shown in plain words. The program ends with status 1 at the first step that is not what it should be.
 */
#include "saltbalance.h"

#include <stdio.h>
#include <stdlib.h>
#include <string.h>

/* The pool: one top block of 1,024 bytes, which splits into blocks of 256 and of 64 bytes; two threads. */
enum { POOL = 1, THREADS = 2, LEVELS = 3, TOPS = 1, TOP_SIZE = 1024 };
enum { THREAD = 0 };

static const saltbalance_shape shape = {
    .pool = POOL, .threads = THREADS, .levels = LEVELS, .tops = TOPS, .top_size = TOP_SIZE};

/* The buffers' memory. The pool never touches it: an id says which part of it is a block. */
static uint8_t memory[TOPS * TOP_SIZE];

/* The record and the five tables, which we keep and lend to each call. */
static saltbalance_device device;
static uint8_t states[SALTBALANCE_STATES(LEVELS, TOPS)];
static uint8_t owners[SALTBALANCE_OWNERS(LEVELS, TOPS)];
static uint16_t lists[SALTBALANCE_LISTS(LEVELS, TOPS)];
static uint64_t calls[SALTBALANCE_CALLS(THREADS)];
static uint8_t queue[SALTBALANCE_QUEUE(THREADS)];

/* The tables as a call takes them: each with its length. */
#define LENGTH(table) (sizeof(table) / sizeof(table)[0])
#define TABLES states, LENGTH(states), owners, LENGTH(owners), lists, LENGTH(lists), calls, LENGTH(calls), queue, LENGTH(queue)

/* Ends the program where a step did not answer what it should. */
static void expect(const char *step, size_t answered, size_t wanted) {
    if (answered != wanted) {
        printf("%s: answered %zu, and %zu was expected\n", step, answered, wanted);
        exit(EXIT_FAILURE);
    }
}

/* Shows where the block with this id lies. */
static void show_block(const char *what, size_t id) {
    printf("  %s: block %zu of level %zu, %zu bytes from byte %zu\n", what, SALTBALANCE_BLOCK(id), SALTBALANCE_LEVEL(id),
           SALTBALANCE_SIZE(id, TOP_SIZE), SALTBALANCE_OFFSET(id, TOP_SIZE));
}

/* Asks whether everything has come home. */
static void expect_whole(size_t wanted) {
    expect("whole", saltbalance_whole(device, shape, TABLES).number, wanted);
    printf("Has everything come home? %s\n", wanted == SALTBALANCE_WHOLE ? "Yes." : "No.");
}

/* Goes on until the buffer is granted, and answers its id. */
static size_t go_on_until_granted(void) {
    for (;;) {
        saltbalance_answer step = saltbalance_go_on(&device, shape, TABLES, THREAD);
        switch (step.number) {
        case SALTBALANCE_FOUND:
            printf("  found: level %zu has a free block; nothing is held yet, but a call is open\n", step.detail);
            expect_whole(SALTBALANCE_NOT_WHOLE);
            break;
        case SALTBALANCE_TAKEN:
            show_block("taken", step.detail);
            break;
        case SALTBALANCE_SPLIT:
            show_block("split, its first quarter in hand", step.detail);
            break;
        default:
            expect("go on", step.number, SALTBALANCE_GRANTED);
            show_block("granted", step.detail);
            return step.detail;
        }
    }
}

/* Goes on until the buffer that goes home has settled. */
static void go_on_until_settled(void) {
    for (;;) {
        saltbalance_answer step = saltbalance_go_on(&device, shape, TABLES, THREAD);
        if (step.number != SALTBALANCE_MERGED) {
            expect("go on", step.number, SALTBALANCE_SETTLED);
            printf("  settled: the block is free\n");
            return;
        }
        show_block("merged with its three buddies", step.detail);
    }
}

int main(void) {
    printf("Build a pool of %d bytes.\n", TOPS * TOP_SIZE);
    expect("build", saltbalance_build(&device, shape, TABLES).number, SALTBALANCE_BUILT);
    expect_whole(SALTBALANCE_WHOLE);

    printf("Thread %d runs, and asks for 50 bytes without waiting.\n", THREAD);
    expect("switch", saltbalance_switch(&device, shape, TABLES, THREAD).number, SALTBALANCE_SWITCHED);
    expect("ask", saltbalance_ask(device, shape, TABLES, THREAD, 50, SALTBALANCE_NO_WAIT).number, SALTBALANCE_OPENED);
    size_t id = go_on_until_granted();
    expect("id", id, SALTBALANCE_ID(POOL, 2, 0));

    memset(memory + SALTBALANCE_OFFSET(id, TOP_SIZE), 7, SALTBALANCE_SIZE(id, TOP_SIZE));
    printf("The buffer is used.\n");
    expect_whole(SALTBALANCE_NOT_WHOLE);

    printf("The thread gives the buffer back.\n");
    expect("give back", saltbalance_give_back(device, shape, TABLES, THREAD, id).number, SALTBALANCE_OPENED);
    go_on_until_settled();
    expect_whole(SALTBALANCE_WHOLE);
    return EXIT_SUCCESS;
}

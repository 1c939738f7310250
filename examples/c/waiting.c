/*
 * Waiting: what to do when a step answers WAITING. The thread is blocked then and nobody runs: another thread is switched to, the clock
 * ticks, and once the waiting thread is ready again it is switched to and goes on. A timed wait ends in one of two ways, and both are
 * shown: the buffer is granted after another thread gave one back, or the time is over.
 *
 * The program ends with status 1 at the first step that is not what it should be.
 */
#include "saltbalance_pool.h"

#include <stdio.h>
#include <stdlib.h>

/* The pool: one top block of 256 bytes, which splits into blocks of 64. */
enum { READER, WRITER, THREADS };
enum { LEVELS = 2, TOPS = 1, TOP_SIZE = 256 };

static uint8_t memory[TOPS * TOP_SIZE];
SALTBALANCE_POOL(pool, memory, 1, THREADS, LEVELS, TOPS, TOP_SIZE);

static const char *const names[THREADS] = {"reader", "writer"};

/* Shows an answer, and ends the program where it is another than was expected. */
static size_t expect(const char *who, const char *call, saltbalance_answer answer, size_t wanted) {
    printf("  %s: %s: %s\n", who, call, saltbalance_word(answer.number));
    if (answer.number != wanted) {
        printf("  expected: %s\n", saltbalance_word(wanted));
        exit(EXIT_FAILURE);
    }
    return answer.detail;
}

/* The scheduler's part: this thread runs from now on. */
static void run(size_t thread) { expect(names[thread], "switch", saltbalance_pool_switch(&pool, thread), SALTBALANCE_SWITCHED); }

/* The scheduler's part: the clock rises by one, and so many threads are ready. */
static void tick(size_t ready) {
    size_t woken = expect("clock", "tick", saltbalance_pool_tick(&pool), SALTBALANCE_TICKED);
    printf("    threads now ready: %zu\n", woken);
    if (woken != ready) {
        exit(EXIT_FAILURE);
    }
}

/* The running thread asks for the whole pool, and its call goes on to where it ends or waits. */
static size_t ask(size_t thread, int32_t wait, size_t wanted) {
    expect(names[thread], "ask", saltbalance_pool_ask(&pool, thread, TOP_SIZE, wait), SALTBALANCE_OPENED);
    return expect(names[thread], "go on", saltbalance_pool_go_on_to_end(&pool, thread), wanted);
}

/* The running thread gives a buffer back; answers how many threads that woke. */
static size_t give_back(size_t thread, size_t id) {
    expect(names[thread], "give back", saltbalance_pool_give_back(&pool, thread, id), SALTBALANCE_OPENED);
    return expect(names[thread], "go on", saltbalance_pool_go_on_to_end(&pool, thread), SALTBALANCE_SETTLED);
}

int main(void) {
    expect("pool", "build", saltbalance_pool_build(&pool), SALTBALANCE_BUILT);

    printf("The writer takes the only buffer. The reader asks for it and would wait 50 ms: it is blocked, and nobody runs.\n");
    run(WRITER);
    size_t id = ask(WRITER, SALTBALANCE_NO_WAIT, SALTBALANCE_GRANTED);
    run(READER);
    ask(READER, 50, SALTBALANCE_WAITING);
    expect("reader", "go on", saltbalance_pool_go_on(&pool, READER), SALTBALANCE_NOT_RUNNING);
    expect("reader", "switch", saltbalance_pool_switch(&pool, READER), SALTBALANCE_IS_BLOCKED);

    printf("10 ms go by. The writer runs and gives its buffer back, which makes the reader ready.\n");
    tick(0);
    run(WRITER);
    if (give_back(WRITER, id) != 1) {
        return EXIT_FAILURE;
    }

    printf("The reader runs again, and its call goes on: the first way to end.\n");
    run(READER);
    id = expect("reader", "go on", saltbalance_pool_go_on_to_end(&pool, READER), SALTBALANCE_GRANTED);

    printf("Now the writer asks and would wait 15 ms, which is two ticks. The reader keeps the buffer.\n");
    run(WRITER);
    ask(WRITER, 15, SALTBALANCE_WAITING);
    tick(0);
    tick(1);

    printf("The writer runs again, and its call goes on: the second way to end. Its call is closed.\n");
    run(WRITER);
    expect("writer", "go on", saltbalance_pool_go_on_to_end(&pool, WRITER), SALTBALANCE_TIMED_OUT);

    printf("The reader gives the buffer back. The pool is whole, though the writer never had what it asked for.\n");
    run(READER);
    give_back(READER, id);
    expect("pool", "whole", saltbalance_pool_whole(&pool), SALTBALANCE_WHOLE);
    return EXIT_SUCCESS;
}

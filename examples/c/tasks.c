/*
 * The pattern of docs/FIRMWARE.md with four tasks: each copies its pieces through a buffer of the pool, waits where there is no room, and
 * tries again where its time was over. One more task ticks. What stands there is compiled as firmware.c and linked; here is the rest: the
 * lock, sleeping and waking, and what the copy task knows.
 *
 * The program ends with status 1 if a buffer was shared, or the light is not what it should be.
 */
#define _XOPEN_SOURCE 700
#include "saltbalance_pool.h"

#include <pthread.h>
#include <stdio.h>
#include <stdlib.h>
#include <string.h>
#include <time.h>

saltbalance_answer take(saltbalance_pool *pool, size_t thread, size_t size, int32_t wait);
saltbalance_answer give(saltbalance_pool *pool, size_t thread, size_t id);
void tick(saltbalance_pool *pool);
int may_be_green(const saltbalance_pool *pool);
void lock(void);
void unlock(void);
void sleep_until_woken(void);
void wake_all(void);
size_t unfinished_pieces(void);

enum { TASKS = 4, PIECES = 200, LEVELS = 3, TOPS = 1, TOP_SIZE = 1024 };

_Alignas(64) static uint8_t memory[TOPS * TOP_SIZE];
SALTBALANCE_POOL(pool, memory, 1, TASKS, LEVELS, TOPS, TOP_SIZE);

static pthread_mutex_t mutex = PTHREAD_MUTEX_INITIALIZER;
static pthread_cond_t woken = PTHREAD_COND_INITIALIZER;
static size_t unfinished = TASKS * PIECES, slept, again, shared;
static int stopped;

void lock(void) { pthread_mutex_lock(&mutex); }
void unlock(void) { pthread_mutex_unlock(&mutex); }
void sleep_until_woken(void) {
    slept++;
    pthread_cond_wait(&woken, &mutex);
}
void wake_all(void) { pthread_cond_broadcast(&woken); }

size_t unfinished_pieces(void) {
    lock();
    size_t pieces = unfinished;
    unlock();
    return pieces;
}

/* Adds to a number that tasks share. */
static void add(size_t *number, size_t more) {
    lock();
    *number += more;
    unlock();
}

/* Uses a buffer for a while, and finds out whether another task wrote into it. */
static void use(uint8_t *buffer, size_t size, uint8_t mark) {
    const struct timespec moment = {0, 100000};
    memset(buffer, mark, size);
    nanosleep(&moment, NULL);
    for (size_t k = 0; k < size; k++) {
        if (buffer[k] != mark) {
            add(&shared, 1);
            return;
        }
    }
}

/* A task: each piece is tried until it has had its buffer. */
static void *copies(void *number) {
    static const int32_t waits[] = {SALTBALANCE_FOREVER, 10, SALTBALANCE_NO_WAIT};
    size_t thread = *(const size_t *)number;
    for (size_t piece = 0; piece < PIECES;) {
        size_t size = piece % 8 == thread ? TOP_SIZE : TOP_SIZE / 4 - piece % 200;
        saltbalance_answer taken = take(&pool, thread, size, waits[(piece + thread) % 3]);
        if (taken.number == SALTBALANCE_NO_ROOM || taken.number == SALTBALANCE_TIMED_OUT) {
            add(&again, 1);
        } else if (taken.number == SALTBALANCE_GRANTED) {
            use(saltbalance_pool_pointer(&pool, taken.detail), saltbalance_pool_size(&pool, taken.detail), (uint8_t)(thread + 1));
            if (give(&pool, thread, taken.detail).number != SALTBALANCE_SETTLED) {
                break;
            }
            piece++;
            add(&unfinished, SIZE_MAX);
        } else {
            printf("  task %zu: %s\n", thread, saltbalance_word(taken.number));
            break;
        }
    }
    return NULL;
}

/* The task that ticks; here a tick takes a millisecond. */
static void *ticks(void *until) {
    const struct timespec moment = {0, 1000000};
    for (int end = 0; !end;) {
        nanosleep(&moment, NULL);
        tick(&pool);
        lock();
        end = *(const int *)until;
        unlock();
    }
    return NULL;
}

int main(void) {
    static size_t numbers[TASKS];
    pthread_t tasks[TASKS], ticker;
    saltbalance_pool_build(&pool);
    int before = saltbalance_pool_whole(&pool).number == SALTBALANCE_WHOLE && !may_be_green(&pool);
    for (size_t k = 0; k < TASKS; k++) {
        numbers[k] = k;
        if (pthread_create(&tasks[k], NULL, copies, &numbers[k]) != 0) {
            return EXIT_FAILURE;
        }
    }
    if (pthread_create(&ticker, NULL, ticks, &stopped) != 0) {
        return EXIT_FAILURE;
    }
    for (size_t k = 0; k < TASKS; k++) {
        pthread_join(tasks[k], NULL);
    }
    lock();
    stopped = 1;
    unlock();
    pthread_join(ticker, NULL);
    printf("before the first piece: whole, and %s\n", before ? "not green" : "green, which is wrong");
    printf("slept %s, tried again %s\n", slept ? "now and then" : "never", again ? "now and then" : "never");
    printf("%zu pieces unfinished, %zu buffers shared, %s\n", unfinished, shared, may_be_green(&pool) ? "green" : "not green");
    return before && unfinished == 0 && shared == 0 && may_be_green(&pool) ? EXIT_SUCCESS : EXIT_FAILURE;
}

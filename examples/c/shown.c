/*
 * What saltbalance_pool.h adds to the calls, compared with what the calls answer: after each step of histories by chance, bytes by state
 * with map and cover; bytes held with what was granted and given back; the largest size with requests on a copy; who keeps the pool from
 * being whole with whole, and with a call that this thread or block allows; pointers with cover. And on tables that are not valid.
 *
 * The program ends with status 1 if anything differs.
 */
#include "calls.h"

#include <stdio.h>
#include <stdlib.h>
#include <string.h>

enum { THREADS = 3, LEVELS = 3, TOPS = 2, TOP_SIZE = 256, STEPS = 5000 };

static uint8_t memory[TOPS * TOP_SIZE];
SALTBALANCE_POOL(pool, memory, 7, THREADS, LEVELS, TOPS, TOP_SIZE);
SALTBALANCE_POOL(trial, memory, 7, THREADS, LEVELS, TOPS, TOP_SIZE);

static uint32_t row[SALTBALANCE_BLOCKS(LEVELS, TOPS)];
static size_t row_length = sizeof row / sizeof row[0];
static size_t holds[THREADS];
static size_t checked, differing;

/* Notes one check, and shows it where it differs. */
static void check(int right, const char *what) {
    checked++;
    if (!right) {
        differing++;
        printf("  differs after %zu checks: %s\n", checked, what);
    }
}

/* The trial becomes a copy of the pool, in which this thread runs, if it is not blocked. */
static int on_trial(size_t thread) {
    memcpy(trial.states, pool.states, sizeof pool_states);
    memcpy(trial.owners, pool.owners, sizeof pool_owners);
    memcpy(trial.lists, pool.lists, sizeof pool_lists);
    memcpy(trial.calls, pool.calls, sizeof pool_calls);
    memcpy(trial.queue, pool.queue, sizeof pool_queue);
    trial.device = pool.device;
    return saltbalance_pool_switch(&trial, thread).number == SALTBALANCE_SWITCHED;
}

/* Bytes by state, and pointers, against map and cover. */
static void bytes_by_state(void) {
    saltbalance_bytes bytes = saltbalance_pool_bytes(&pool);
    size_t in_state[SALTBALANCE_MOST_STATE + 1] = {0};
    saltbalance_mapped mapped = saltbalance_pool_map(&pool, row, row_length);
    for (size_t k = 0; k < mapped.blocks; k++) {
        const uint8_t *start = saltbalance_pool_pointer(&pool, row[k]);
        saltbalance_covered covered = saltbalance_pool_cover_pointer(&pool, start + saltbalance_pool_size(&pool, row[k]) - 1);
        check(start == memory + saltbalance_pool_offset(&pool, row[k]), "the pointer from an id");
        check(covered.refusal == 0 && covered.id == row[k], "the id from a pointer");
        in_state[covered.state] += saltbalance_pool_size(&pool, row[k]);
    }
    check(bytes.refusal == 0 && memcmp(bytes.in_state, in_state, sizeof in_state) == 0, "bytes by state");
}

/* Whether a request of this thread that may not wait is granted on a copy; the thread is ready and has no call open. */
static int is_granted(size_t thread, size_t size) {
    on_trial(thread);
    size_t number = saltbalance_pool_ask(&trial, thread, size, SALTBALANCE_NO_WAIT).number;
    while (number >= SALTBALANCE_OPENED && number != SALTBALANCE_GRANTED) {
        number = saltbalance_pool_go_on(&trial, thread).number;
    }
    return number == SALTBALANCE_GRANTED;
}

/* The largest size against requests for it and for one byte more. */
static void largest_size(void) {
    saltbalance_counted largest = saltbalance_pool_largest(&pool);
    check(largest.refusal == 0, "the largest size");
    for (size_t thread = 0; thread < THREADS; thread++) {
        if (pool.calls[SALTBALANCE_CALLS(thread)] == 0) {
            check(largest.bytes == 0 || is_granted(thread, largest.bytes), "the largest size is granted");
            check(!is_granted(thread, largest.bytes + (largest.bytes != 0)), "and one byte more is not");
        }
    }
}

/* Who keeps the pool from being whole. */
static void keeper(void) {
    saltbalance_keeper who = saltbalance_pool_keeper(&pool);
    int whole = saltbalance_pool_whole(&pool).number == SALTBALANCE_WHOLE;
    check(who.refusal == 0 && (who.keeper == SALTBALANCE_NOBODY) == whole, "nobody keeps a whole pool");
    if (who.keeper == SALTBALANCE_OPEN_CALL && on_trial(who.thread)) {
        size_t asked = saltbalance_pool_ask(&trial, who.thread, 0, SALTBALANCE_NO_WAIT).number;
        check(asked == SALTBALANCE_CALL_OPEN, "this thread has a call open");
    }
    if (who.keeper == SALTBALANCE_HELD_BLOCK) {
        on_trial(who.thread);
        check(saltbalance_pool_give_back(&trial, who.thread, who.id).number == SALTBALANCE_OPENED, "this thread holds this block");
    }
}

/* One step, and what it changes of the bytes that threads hold. */
static size_t step(uint32_t *seed) {
    numbers n = {0, 0, 0, 0, 0};
    name call = next_call(&pool, seed, &n);
    if (call == GO_ON) {
        saltbalance_answer answer = saltbalance_pool_go_on(&pool, n.thread);
        holds[n.thread] += answer.number == SALTBALANCE_GRANTED ? saltbalance_pool_size(&pool, answer.detail) : 0;
        return answer.number;
    }
    size_t answered = make_call(call, &pool, row, row_length, n);
    check(answered == 0 || answered == SALTBALANCE_IS_BLOCKED || answered >= SALTBALANCE_OPENED, words[call]);
    holds[n.thread] -= call == GIVE_BACK ? saltbalance_pool_size(&pool, n.id) : 0;
    if (call == BUILD) {
        memset(holds, 0, sizeof holds);
    }
    return answered;
}

/* Each step of a history, and after it all questions. Every answer of a step comes up, and so do both refusals that end a call. */
static void history(void) {
    uint32_t seed = 2463534242u;
    size_t seen[SALTBALANCE_BUILT + 1] = {0};
    check(saltbalance_pool_build(&pool).number == SALTBALANCE_BUILT, "build");
    seen[saltbalance_pool_whole(&pool).number]++;
    keeper();
    for (int steps = 0; steps < STEPS; steps++) {
        seen[step(&seed)]++;
        bytes_by_state();
        largest_size();
        keeper();
        for (size_t thread = 0; thread < THREADS; thread++) {
            saltbalance_counted held = saltbalance_pool_held(&pool, thread);
            check(held.refusal == 0 && held.bytes == holds[thread], "bytes held");
        }
    }
    for (size_t number = SALTBALANCE_OPENED; number <= SALTBALANCE_BUILT; number++) {
        check(seen[number] != 0, saltbalance_word(number));
    }
    check(seen[SALTBALANCE_NO_ROOM] != 0 && seen[SALTBALANCE_TIMED_OUT] != 0, "no room and timed out");
}

/* What is outside the pool, and tables that are not valid. */
static void refused(void) {
    const size_t outside[] = {6, 8, 7 + LEVELS * 256, 7 + TOPS * 4096, SIZE_MAX};
    for (size_t k = 0; k < sizeof outside / sizeof outside[0]; k++) {
        check(saltbalance_pool_size(&pool, outside[k]) == 0, "the size of an id outside");
        check(saltbalance_pool_offset(&pool, outside[k]) == SIZE_MAX, "the offset of an id outside");
        check(saltbalance_pool_pointer(&pool, outside[k]) == NULL, "the pointer of an id outside");
    }
    check(saltbalance_pool_held(&pool, SIZE_MAX).bytes == 0, "bytes held by no thread");
    check(saltbalance_pool_cover_pointer(&pool, &pool).refusal == SALTBALANCE_OFFSET_OUTSIDE, "a pointer outside");
    pool.states[0] = SALTBALANCE_MOST_STATE + 1;
    saltbalance_bytes bytes = saltbalance_pool_bytes(&pool);
    for (size_t state = 0; state <= SALTBALANCE_MOST_STATE; state++) {
        check(bytes.refusal == SALTBALANCE_NOT_VALID && bytes.in_state[state] == 0, "bytes by state, refused");
    }
    saltbalance_counted largest = saltbalance_pool_largest(&pool), held = saltbalance_pool_held(&pool, 0);
    saltbalance_keeper who = saltbalance_pool_keeper(&pool);
    check(largest.refusal == SALTBALANCE_NOT_VALID && largest.bytes == 0, "the largest size, refused");
    check(held.refusal == SALTBALANCE_NOT_VALID && held.bytes == 0, "bytes held, refused");
    check(who.refusal == SALTBALANCE_NOT_VALID && who.keeper == SALTBALANCE_NOBODY, "who keeps it, refused");
}

/* Each number of the lists has words of its own. */
static void every_word(void) {
    const char *none = saltbalance_word(SALTBALANCE_BUILT + 1);
    for (size_t a = 0; a <= SALTBALANCE_BUILT; a++) {
        int listed = a <= SALTBALANCE_ROW_TOO_SHORT || a >= SALTBALANCE_OPENED;
        check(listed == (strcmp(saltbalance_word(a), none) != 0), "a word where there is an answer");
        for (size_t b = 0; listed && b < a; b++) {
            check(strcmp(saltbalance_word(a), saltbalance_word(b)) != 0, "words of its own");
        }
    }
}

int main(void) {
    history();
    refused();
    every_word();
    printf("%d steps, %zu checks, %zu differ\n", STEPS, checked, differing);
    return differing == 0 ? EXIT_SUCCESS : EXIT_FAILURE;
}

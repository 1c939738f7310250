/*
 * Tables on the heap, each exactly as long as it says, so that a memory checker sees every step beyond an end; copies of them; and calls
 * on them.
 */
#ifndef LENT_H
#define LENT_H

#include "calls.h"

#include <stdio.h>
#include <stdlib.h>
#include <string.h>

/* The length of each table and of the row, in elements. */
typedef struct lengths {
    size_t states, owners, lists, calls, queue, row;
} lengths;

/* The record, the five tables and the row for map. */
typedef struct lent {
    lengths length;
    saltbalance_device device;
    uint8_t *states;
    uint8_t *owners;
    uint16_t *lists;
    uint64_t *calls;
    uint8_t *queue;
    uint32_t *row;
} lent;

/* The lengths that the header's macros give for a shape. */
static lengths right_lengths(saltbalance_shape s) {
    return (lengths){.states = SALTBALANCE_STATES(s.levels, s.tops),
                     .owners = SALTBALANCE_OWNERS(s.levels, s.tops),
                     .lists = SALTBALANCE_LISTS(s.levels, s.tops),
                     .calls = SALTBALANCE_CALLS(s.threads),
                     .queue = SALTBALANCE_QUEUE(s.threads),
                     .row = SALTBALANCE_BLOCKS(s.levels, s.tops)};
}

/* Room for a table, all zeros; NULL for a table of no elements. */
static void *room(size_t elements, size_t size) {
    if (elements == 0) {
        return NULL;
    }
    void *table = calloc(elements, size);
    if (table == NULL) {
        fputs("there is no memory left for the tables\n", stderr);
        exit(EXIT_FAILURE);
    }
    return table;
}

/* Tables of zeros with these lengths. */
static lent lend(lengths n) {
    return (lent){.length = n,
                  .device = {0, 0},
                  .states = room(n.states, sizeof(uint8_t)),
                  .owners = room(n.owners, sizeof(uint8_t)),
                  .lists = room(n.lists, sizeof(uint16_t)),
                  .calls = room(n.calls, sizeof(uint64_t)),
                  .queue = room(n.queue, sizeof(uint8_t)),
                  .row = room(n.row, sizeof(uint32_t))};
}

/* Frees the tables. */
static void let_go(lent *t) {
    free(t->states);
    free(t->owners);
    free(t->lists);
    free(t->calls);
    free(t->queue);
    free(t->row);
}

/* Copies a table; one of no elements may be NULL. */
static void copy(void *to, const void *from, size_t bytes) {
    if (bytes != 0) {
        memcpy(to, from, bytes);
    }
}

/* The same record, tables and row once more. */
static lent copy_of(const lent *t) {
    lent other = lend(t->length);
    other.device = t->device;
    copy(other.states, t->states, t->length.states * sizeof(uint8_t));
    copy(other.owners, t->owners, t->length.owners * sizeof(uint8_t));
    copy(other.lists, t->lists, t->length.lists * sizeof(uint16_t));
    copy(other.calls, t->calls, t->length.calls * sizeof(uint64_t));
    copy(other.queue, t->queue, t->length.queue * sizeof(uint8_t));
    copy(other.row, t->row, t->length.row * sizeof(uint32_t));
    return other;
}

/* Whether two tables of one length hold the same. */
static int equal(const void *a, const void *b, size_t bytes) { return bytes == 0 || memcmp(a, b, bytes) == 0; }

/* Whether record, tables and row hold the same. */
static int same(const lent *a, const lent *b) {
    return a->device.clock == b->device.clock && a->device.running == b->device.running &&
           equal(a->states, b->states, a->length.states * sizeof(uint8_t)) &&
           equal(a->owners, b->owners, a->length.owners * sizeof(uint8_t)) &&
           equal(a->lists, b->lists, a->length.lists * sizeof(uint16_t)) &&
           equal(a->calls, b->calls, a->length.calls * sizeof(uint64_t)) &&
           equal(a->queue, b->queue, a->length.queue * sizeof(uint8_t)) && equal(a->row, b->row, a->length.row * sizeof(uint32_t));
}

/* Makes a call on the tables, as calls.h answers it. */
static size_t make(name call, lent *t, saltbalance_shape s, numbers n) {
    saltbalance_pool pool = {.shape = s,
                             .device = t->device,
                             .states = t->states,
                             .owners = t->owners,
                             .lists = t->lists,
                             .calls = t->calls,
                             .queue = t->queue,
                             .lengths = {t->length.states, t->length.owners, t->length.lists, t->length.calls, t->length.queue},
                             .memory = NULL};
    size_t answered = make_call(call, &pool, t->row, t->length.row, n);
    t->device = pool.device;
    return answered;
}

#endif

/*
 * The near side of the bridge (bridge.h): the functions of the archive's header, each of which sends its call to the far side. FAR is the
 * command that runs the far side.
 *
 * A table that is lent const, and the space between the tables, must come back as they were sent, else the program is ended.
 */
#define _GNU_SOURCE
#include "bridge.h"

#include <errno.h>
#include <pthread.h>
#include <spawn.h>
#include <stdio.h>
#include <stdlib.h>
#include <string.h>
#include <sys/socket.h>
#include <unistd.h>

/* The fewest bytes in front of and behind a table in the message, and what each of them holds. */
enum { SPACE = 8, FILLED = 0xC3 };

/* A table that the caller lends; a table of no bytes may be NULL. */
typedef struct lent {
    void *table;
    size_t length, bytes;
    int writable;
} lent;

static _Noreturn void fail(const char *what) {
    fprintf(stderr, "bridge: %s\n", what);
    abort();
}

/* Starts the far side, and answers this side's end of the socket. */
static int start(void) {
    char *words[] = {"sh", "-c", "exec " FAR, NULL};
    int ends[2];
    pid_t far;
    posix_spawn_file_actions_t actions;
    if (socketpair(AF_UNIX, SOCK_SEQPACKET | SOCK_CLOEXEC, 0, ends) != 0 || posix_spawn_file_actions_init(&actions) != 0 ||
        posix_spawn_file_actions_adddup2(&actions, ends[1], STDIN_FILENO) != 0 ||
        posix_spawn(&far, "/bin/sh", &actions, NULL, words, environ) != 0) {
        fail("cannot start: " FAR);
    }
    posix_spawn_file_actions_destroy(&actions);
    close(ends[1]);
    return ends[0];
}

/* Puts the tables into a message, with some space around each, and answers the bytes of all. */
static size_t pack(message *m, const lent tables[TABLES]) {
    size_t end = SPACE;
    for (size_t k = 0; k < TABLES; k++) {
        if (tables[k].bytes > ROOM || end + tables[k].bytes + 2 * SPACE > ROOM) {
            fail("the tables are too long (ROOM in bridge.h)");
        }
        m->lengths[k] = tables[k].length;
        m->starts[k] = end;
        end += (tables[k].bytes + 2 * SPACE - 1) / SPACE * SPACE;
    }
    memset(m->tables, FILLED, end);
    for (size_t k = 0; k < TABLES; k++) {
        if (tables[k].bytes != 0) {
            memcpy(m->tables + m->starts[k], tables[k].table, tables[k].bytes);
        }
    }
    return end;
}

/* Copies what the call wrote: into the caller's tables, and into the message that was sent, which then is the one that came back. */
static void unpack(message *sent, const message *back, const lent tables[TABLES]) {
    for (size_t k = 0; k < TABLES; k++) {
        if (tables[k].writable && tables[k].bytes != 0) {
            memcpy(tables[k].table, back->tables + sent->starts[k], tables[k].bytes);
            memcpy(sent->tables + sent->starts[k], back->tables + sent->starts[k], tables[k].bytes);
        }
    }
}

/* Makes a call on the far side. */
static answer cross(name call, saltbalance_device *device, saltbalance_shape shape, const lent tables[TABLES], about what) {
    static pthread_mutex_t one_at_a_time = PTHREAD_MUTEX_INITIALIZER;
    static message sent, back;
    static int far = -1;
    pthread_mutex_lock(&one_at_a_time);
    if (far < 0) {
        far = start();
    }
    sent.name = call;
    sent.device = *device;
    sent.shape = shape;
    sent.about = what;
    size_t end = pack(&sent, tables);
    ssize_t size = (ssize_t)(offsetof(message, tables) + end);
    if (TEMP_FAILURE_RETRY(send(far, &sent, (size_t)size, MSG_NOSIGNAL)) != size ||
        TEMP_FAILURE_RETRY(recv(far, &back, sizeof back, 0)) != size) {
        fail("the far side has ended: " FAR);
    }
    unpack(&sent, &back, tables);
    if (memcmp(sent.tables, back.tables, end) != 0) {
        fail("a call wrote where it must not");
    }
    answer answered = back.answer;
    *device = back.device;
    pthread_mutex_unlock(&one_at_a_time);
    return answered;
}

/* The parameters of the tables: each is lent as READ or as WRITE. */
#define READ const
#define WRITE
#define LENT_AS(STATES_AS, OWNERS_AS, LISTS_AS, CALLS_AS, QUEUE_AS)                                                                    \
    STATES_AS uint8_t *states, size_t states_length, OWNERS_AS uint8_t *owners, size_t owners_length, LISTS_AS uint16_t *lists,        \
        size_t lists_length, CALLS_AS uint64_t *calls, size_t calls_length, QUEUE_AS uint8_t *queue, size_t queue_length

/* The tables as a call has them. */
#define WRITABLE(TABLE) _Generic((TABLE), const uint8_t *: 0, const uint16_t *: 0, const uint64_t *: 0, default: 1)
#define LEND(TABLE) {(void *)(TABLE), TABLE##_length, TABLE##_length * sizeof *(TABLE), WRITABLE(TABLE)}
#define LENT [STATES] = LEND(states), [OWNERS] = LEND(owners), [LISTS] = LEND(lists), [CALLS] = LEND(calls), [QUEUE] = LEND(queue)

saltbalance_lengths saltbalance_lengths_of(saltbalance_shape shape) {
    saltbalance_device none = {0, 0};
    return cross(LENGTHS_OF, &none, shape, (lent[TABLES]){{NULL, 0, 0, 0}}, (about){0}).lengths;
}
saltbalance_answer saltbalance_build(saltbalance_device *device, saltbalance_shape shape, LENT_AS(WRITE, WRITE, WRITE, WRITE, WRITE)) {
    return cross(BUILD, device, shape, (lent[TABLES]){LENT}, (about){0}).answer;
}
saltbalance_answer saltbalance_ask(saltbalance_device device, saltbalance_shape shape, LENT_AS(READ, READ, READ, WRITE, READ),
                                   size_t thread, size_t size, int32_t wait) {
    return cross(ASK, &device, shape, (lent[TABLES]){LENT}, (about){.thread = thread, .size = size, .wait = wait}).answer;
}
saltbalance_answer saltbalance_go_on(saltbalance_device *device, saltbalance_shape shape, LENT_AS(WRITE, WRITE, WRITE, WRITE, WRITE),
                                     size_t thread) {
    return cross(GO_ON, device, shape, (lent[TABLES]){LENT}, (about){.thread = thread}).answer;
}
saltbalance_answer saltbalance_give_back(saltbalance_device device, saltbalance_shape shape, LENT_AS(WRITE, WRITE, READ, WRITE, READ),
                                         size_t thread, size_t id) {
    return cross(GIVE_BACK, &device, shape, (lent[TABLES]){LENT}, (about){.thread = thread, .id = id}).answer;
}
saltbalance_answer saltbalance_switch(saltbalance_device *device, saltbalance_shape shape, LENT_AS(READ, READ, READ, READ, READ),
                                      size_t thread) {
    return cross(SWITCH, device, shape, (lent[TABLES]){LENT}, (about){.thread = thread}).answer;
}
saltbalance_answer saltbalance_tick(saltbalance_device *device, saltbalance_shape shape, LENT_AS(READ, READ, READ, WRITE, WRITE)) {
    return cross(TICK, device, shape, (lent[TABLES]){LENT}, (about){0}).answer;
}
saltbalance_answer saltbalance_whole(saltbalance_device device, saltbalance_shape shape, LENT_AS(READ, READ, READ, READ, READ)) {
    return cross(WHOLE, &device, shape, (lent[TABLES]){LENT}, (about){0}).answer;
}
saltbalance_covered saltbalance_cover(saltbalance_device device, saltbalance_shape shape, LENT_AS(READ, READ, READ, READ, READ),
                                      size_t offset) {
    return cross(COVER, &device, shape, (lent[TABLES]){LENT}, (about){.offset = offset}).covered;
}
saltbalance_mapped saltbalance_map(saltbalance_device device, saltbalance_shape shape, LENT_AS(READ, READ, READ, READ, READ),
                                   uint32_t *row, size_t row_length) {
    return cross(MAP, &device, shape, (lent[TABLES]){LENT, [ROW] = LEND(row)}, (about){0}).mapped;
}

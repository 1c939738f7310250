/*
 * The bridge: calls of the archive, which is for x86-64 alone, from a program of another processor.
 *
 * near.c is linked with the program in the archive's place. It sends each call over a socket as one message, in which the tables stand.
 * far.c is an x86-64 program that is linked with the archive and run by an emulator: it makes the call on the tables in the message, and
 * sends the message back with the answer. So every answer, and all that is written, comes from the archive.
 */
#ifndef BRIDGE_H
#define BRIDGE_H

#include "saltbalance.h"

_Static_assert(sizeof(size_t) == 8 && __BYTE_ORDER__ == __ORDER_LITTLE_ENDIAN__, "numbers stand in memory as they do on x86-64");

/* The calls, in the order of the header. */
typedef enum name { LENGTHS_OF, BUILD, ASK, GO_ON, GIVE_BACK, SWITCH, TICK, WHOLE, COVER, MAP } name;

/* What is lent: the five tables, and the row of a map. */
enum { STATES, OWNERS, LISTS, CALLS, QUEUE, ROW, TABLES };

/* The bytes that a message has for all tables: more than twice those of the largest shape. */
enum { ROOM = 100000 };

/* What a call is about; a number that it does not use is 0. */
typedef struct about {
    size_t thread, size, id, offset;
    int32_t wait;
} about;

/* What a call answers. */
typedef union answer {
    saltbalance_answer answer;
    saltbalance_covered covered;
    saltbalance_mapped mapped;
    saltbalance_lengths lengths;
} answer;

/* A call, and after it what it left behind. Of `tables` only the part that is used goes over the bridge. */
typedef struct message {
    name name;
    saltbalance_device device;
    saltbalance_shape shape;
    about about;
    answer answer;
    size_t lengths[TABLES]; /* in elements */
    size_t starts[TABLES];  /* where each table starts, in bytes, at a multiple of 8 */
    _Alignas(8) uint8_t tables[ROOM];
} message;

#endif

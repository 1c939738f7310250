/*
 * Runs a script in plain C: reads it from standard input, runs its records on tables of its own, which the steps keep valid, so that they
 * are never checked as a whole, and prints the listing.
 */
#include "plain/fresh.h"
#include "plain/go_on.h"
#include "plain/questions.h"
#include "plain/steps_open.h"
#include "runner/listing.h"
#include "runner/records.h"

/* Tables for the largest shape. */
enum { MOST_BLOCKS = SALTBALANCE_BLOCKS(SALTBALANCE_MOST_LEVELS, SALTBALANCE_MOST_TOPS) };

static shape s;
static saltbalance_device device;
static uint8_t states[MOST_BLOCKS];
static uint8_t owners[MOST_BLOCKS];
static uint16_t lists[SALTBALANCE_MOST_LEVELS + MOST_BLOCKS];
static call calls[SALTBALANCE_MOST_THREADS];
static uint8_t queue[SALTBALANCE_MOST_THREADS + 1];

/* The shape: the tables become those of a fresh pool. */
static answer shape_record(const uint8_t *value) {
    s = (shape){value[0], value[1], value[2], value[3], four_bytes(value + 4)};
    if (!shape_allowed(s)) {
        return bare(SALTBALANCE_SHAPE_NOT_ALLOWED);
    }
    make_fresh(s, states, owners, lists, calls, queue);
    return bare(SALTBALANCE_BUILT);
}

/* Makes the step of a record. */
static inline answer run_record(record r) {
    const uint8_t *value = r.value;
    switch (r.tag) {
    case SHAPE_TAG:
        return shape_record(value);
    case ASK_TAG:
        return ask_step(device, s, calls, value[0], four_bytes(value + 1), r.length == 5 ? -1 : (int32_t)four_bytes(value + 5));
    case GO_ON_TAG:
        return go_on_step(&device, s, states, owners, lists, calls, queue, value[0]);
    case GIVE_TAG:
        return give_step(device, s, states, owners, calls, value[0], four_bytes(value + 1));
    case SWITCH_TAG:
        return switch_step(&device, s, calls, value[0]);
    case TICK_TAG:
        return tick_step(&device, calls, queue);
    default:
        return whole_of(s, states, calls);
    }
}

/* Runs the records, each with its line, up to the script's end, a bad one or a shape that is not allowed. */
static void run_script(const uint8_t *script, size_t length) {
    size_t number = 0;
    size_t at = 0;
    while (at < length) {
        record r;
        if (!read_record(script, length, at, &r)) {
            put_line(number, script[at], SALTBALANCE_BAD_RECORD, at);
            return;
        }
        answer a = run_record(r);
        put_line(number, r.tag, a.number, a.detail);
        if (a.number == SALTBALANCE_SHAPE_NOT_ALLOWED) {
            return;
        }
        number++;
        at += 3 + r.length;
    }
}

/* Reads standard input up to its end or to so many bytes; answers how many there were. */
static size_t read_input(uint8_t *bytes, size_t most) {
    size_t length = 0;
    while (length < most) {
        ssize_t count = read(STDIN_FILENO, bytes + length, most - length);
        if (count <= 0) {
            break;
        }
        length += (size_t)count;
    }
    return length;
}

int main(void) {
    static uint8_t script[SCRIPT_MOST + 1];
    size_t length = read_input(script, sizeof script);
    put_header();
    if (length == 0) {
        put_line(0, 0, SALTBALANCE_BAD_RECORD, 0);
    } else if (length > SCRIPT_MOST) {
        put_line(0, 0, SALTBALANCE_BAD_RECORD, SCRIPT_MOST);
    } else {
        run_script(script, length);
    }
    flush();
    return EXIT_SUCCESS;
}

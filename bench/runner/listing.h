/* The listing, through a buffer of one's own. */
#ifndef RUNNER_LISTING_H
#define RUNNER_LISTING_H

#include <stddef.h>
#include <stdint.h>
#include <stdlib.h>
#include <string.h>
#include <unistd.h>

/* The most bytes that a line takes: four numbers of up to ten digits, each with a byte behind it. */
enum { LINE_MOST = 44, LISTING_ROOM = 65536 };

static char listing[LISTING_ROOM];
static size_t listed;

/* Writes what the buffer holds to standard output. */
static void flush(void) {
    for (size_t done = 0; done < listed;) {
        ssize_t count = write(STDOUT_FILENO, listing + done, listed - done);
        if (count < 0) {
            exit(EXIT_FAILURE);
        }
        done += (size_t)count;
    }
    listed = 0;
}

/* How many decimal digits a number has. */
static inline size_t digit_count(uint32_t number) {
    size_t count = 1;
    for (uint64_t power = 10; power <= number; power *= 10) {
        count++;
    }
    return count;
}

/* Writes a number in decimal and a byte behind it; answers the place behind both. */
static inline char *put_number(char *to, uint32_t number, char behind) {
    char *end = to + digit_count(number);
    *end = behind;
    for (char *at = end; at > to; number /= 10) {
        *--at = (char)('0' + number % 10);
    }
    return end + 1;
}

/* Writes a record's line. */
static inline void put_line(size_t record, uint8_t tag, size_t number, size_t detail) {
    if (listed + LINE_MOST > sizeof listing) {
        flush();
    }
    char *to = listing + listed;
    to = put_number(to, (uint32_t)record, ' ');
    to = put_number(to, tag, ' ');
    to = put_number(to, (uint32_t)number, ' ');
    to = put_number(to, (uint32_t)detail, '\n');
    listed = (size_t)(to - listing);
}

/* Writes the header. */
static void put_header(void) {
    static const char header[] = "n tag answer detail\n";
    memcpy(listing, header, sizeof header - 1);
    listed = sizeof header - 1;
}

#endif

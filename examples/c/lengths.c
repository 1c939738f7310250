/*
 * The header's lengths are the archive's: for every number of levels, top blocks and threads that is allowed the macros give what
 * saltbalance_lengths_of says, and a shape that is not allowed has no lengths.
 *
 * The program ends with status 1 if anything differs.
 */
#include "saltbalance.h"

#include <stdio.h>
#include <stdlib.h>

static size_t compared, differing;

/* The lengths that the macros give. */
static saltbalance_lengths by_macros(saltbalance_shape s) {
    return (saltbalance_lengths){.states = SALTBALANCE_STATES(s.levels, s.tops),
                                 .owners = SALTBALANCE_OWNERS(s.levels, s.tops),
                                 .lists = SALTBALANCE_LISTS(s.levels, s.tops),
                                 .calls = SALTBALANCE_CALLS(s.threads),
                                 .queue = SALTBALANCE_QUEUE(s.threads)};
}

/* The bytes of tables of these lengths and of the record. */
static size_t bytes(saltbalance_lengths n) {
    return n.states + n.owners + sizeof(uint16_t) * n.lists + sizeof(uint64_t) * n.calls + n.queue + sizeof(saltbalance_device);
}

/* Shows a shape whose lengths are not those that were expected. */
static void compare(saltbalance_shape s, saltbalance_lengths wanted) {
    saltbalance_lengths said = saltbalance_lengths_of(s);
    compared++;
    if (said.states != wanted.states || said.owners != wanted.owners || said.lists != wanted.lists || said.calls != wanted.calls ||
        said.queue != wanted.queue) {
        differing++;
        printf("  differs: pool %zu, %zu threads, %zu levels, %zu top blocks of %zu bytes: the archive says %zu %zu %zu %zu %zu\n",
               s.pool, s.threads, s.levels, s.tops, s.top_size, said.states, said.owners, said.lists, said.calls, said.queue);
    }
}

/* Every number of levels, top blocks and threads that is allowed. */
static void allowed_shapes(void) {
    for (size_t levels = 1; levels <= SALTBALANCE_MOST_LEVELS; levels++) {
        for (size_t tops = 1; tops <= SALTBALANCE_MOST_TOPS; tops++) {
            for (size_t threads = 1; threads <= SALTBALANCE_MOST_THREADS; threads++) {
                saltbalance_shape s = {1, threads, levels, tops, SALTBALANCE_IN_A_TOP(levels)};
                compare(s, by_macros(s));
                if (SALTBALANCE_RAM(threads, levels, tops) != bytes(by_macros(s))) {
                    differing++;
                    printf("  differs: SALTBALANCE_RAM(%zu, %zu, %zu)\n", threads, levels, tops);
                }
            }
        }
    }
}

/* Shapes that are just not allowed, in each of their numbers. */
static void other_shapes(void) {
    const saltbalance_shape other[] = {
        {SALTBALANCE_MOST_POOL + 1, 1, 2, 1, 64},
        {1, 0, 2, 1, 64},
        {1, SALTBALANCE_MOST_THREADS + 1, 2, 1, 64},
        {1, 1, 0, 1, 64},
        {1, 1, SALTBALANCE_MOST_LEVELS + 1, 1, SALTBALANCE_IN_A_TOP(SALTBALANCE_MOST_LEVELS + 1)},
        {1, 1, 2, 0, 64},
        {1, 1, 2, SALTBALANCE_MOST_TOPS + 1, 64},
        {1, 1, 2, 1, 0},
        {1, 1, 2, 1, SALTBALANCE_IN_A_TOP(2) - 1},
        {1, 1, 2, 1, SALTBALANCE_IN_A_TOP(2) + 1},
        {1, 1, 2, 1, SALTBALANCE_MOST_TOP_SIZE + SALTBALANCE_IN_A_TOP(2)},
        {SIZE_MAX, SIZE_MAX, SIZE_MAX, SIZE_MAX, SIZE_MAX},
    };
    for (size_t k = 0; k < sizeof other / sizeof other[0]; k++) {
        compare(other[k], (saltbalance_lengths){0, 0, 0, 0, 0});
    }
}

int main(void) {
    allowed_shapes();
    other_shapes();
    printf("%zu shapes compared, %zu differ\n", compared, differing);
    return differing == 0 ? EXIT_SUCCESS : EXIT_FAILURE;
}

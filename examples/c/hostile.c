/*
 * Hostile callers: null pointers with length 0, wrong lengths, damaged contents, any numbers. Each call must give the listed refusal
 * and alter nothing. And the header's lengths are right: exactly these pass.
 *
 * The program ends with status 1 if anything differs.
 */
#include "lent.h"

/* A pool of one top block of 64 bytes with two levels; two threads. */
static const saltbalance_shape shape = {.pool = 1, .threads = 2, .levels = 2, .tops = 1, .top_size = 64};

/* Numbers that each call takes on a fresh pool in which thread 0 runs, unless the stage of its call forbids it. */
static const numbers plain = {.thread = 0, .size = 16, .id = 1, .offset = 0, .wait = 0};

static size_t checked, differing;

/* Notes one check, and shows it where it differs. */
static void check(int right, const char *what, name call, size_t answered) {
    checked++;
    if (!right) {
        differing++;
        printf("  differs: %s: %s answered %zu\n", what, words[call], answered);
    }
}

/* Makes a call that must give this refusal and alter nothing. */
static void refused(const char *what, size_t refusal, name call, lent *t, saltbalance_shape s, numbers n) {
    lent before = copy_of(t);
    size_t answered = make(call, t, s, n);
    check(answered == refusal, what, call, answered);
    check(same(t, &before), "something was altered", call, answered);
    let_go(&before);
}

/* The tables of a fresh pool in which thread 0 runs. */
static lent fresh(saltbalance_shape s) {
    lent t = lend(right_lengths(s));
    size_t built = make(BUILD, &t, s, plain);
    check(built == SALTBALANCE_BUILT, "the right lengths", BUILD, built);
    size_t switched = make(SWITCH, &t, s, plain);
    check(switched == SALTBALANCE_SWITCHED, "a fresh pool", SWITCH, switched);
    return t;
}

/* Null pointers with length 0: the shape is looked at first, then the lengths. */
static void null_pointers(void) {
    lent nothing = lend((lengths){0, 0, 0, 0, 0, 0});
    saltbalance_shape wrong = shape;
    wrong.levels = 0;
    for (name call = BUILD; call < NAMES; call++) {
        refused("null pointers", SALTBALANCE_WRONG_LENGTH, call, &nothing, shape, plain);
        refused("null pointers and a wrong shape", SALTBALANCE_SHAPE_NOT_ALLOWED, call, &nothing, wrong, plain);
    }
    let_go(&nothing);
    lent t = fresh(shape);
    free(t.row);
    t.row = NULL;
    t.length.row = 0;
    refused("no row", SALTBALANCE_ROW_TOO_SHORT, MAP, &t, shape, plain);
    let_go(&t);
}

/* The length that a number names, to make it longer or shorter. */
static size_t *length_at(lengths *n, int which) {
    size_t *const all[] = {&n->states, &n->owners, &n->lists, &n->calls, &n->queue};
    return all[which];
}

/* One table longer or shorter by one is refused by each call. */
static void lengths_beside(saltbalance_shape s, name first, name last) {
    for (int which = 0; which < 5; which++) {
        for (int longer = 0; longer < 2; longer++) {
            lengths n = right_lengths(s);
            size_t *length = length_at(&n, which);
            *length = longer ? *length + 1 : *length - 1;
            lent t = lend(n);
            for (name call = first; call <= last; call++) {
                refused("a length beside the right one", SALTBALANCE_WRONG_LENGTH, call, &t, s, plain);
            }
            let_go(&t);
        }
    }
}

/* The header's lengths, for every number of levels, top blocks and threads: these are built, and those beside them are refused. */
static void every_length(void) {
    for (size_t levels = 1; levels <= SALTBALANCE_MOST_LEVELS; levels++) {
        for (size_t tops = 1; tops <= SALTBALANCE_MOST_TOPS; tops++) {
            for (size_t threads = 1; threads <= SALTBALANCE_MOST_THREADS; threads++) {
                saltbalance_shape s = {.pool = 0, .threads = threads, .levels = levels, .tops = tops, .top_size = 1024};
                lent t = lend(right_lengths(s));
                size_t built = make(BUILD, &t, s, plain);
                check(built == SALTBALANCE_BUILT, "the right lengths", BUILD, built);
                let_go(&t);
                lengths_beside(s, BUILD, BUILD);
            }
        }
    }
    lengths_beside(shape, BUILD, MAP);
}

/* Damages fresh tables in one of these ways; answers 0 where there are no more. */
static int damage(lent *t, int way) {
    switch (way) {
    case 0: t->states[0] = 6; return 1;                  /* no such state */
    case 1: t->states[1] = SALTBALANCE_FREE; return 1;   /* a quarter of a block that is not divided */
    case 2: t->states[0] = SALTBALANCE_FREEING; return 1; /* in hand, and no call has it */
    case 3: t->owners[0] = 1; return 1;                  /* a free block with an owner */
    case 4: t->lists[0] = UINT16_MAX; return 1;          /* a list longer than its level */
    case 5: t->lists[2] = UINT16_MAX; return 1;          /* a list that names no block */
    case 6: t->lists[6] = 1; return 1;                   /* something behind the end of a list */
    case 7: t->calls[0] = UINT64_MAX; return 1;          /* no such stage */
    case 8: t->calls[6] = 3, t->calls[11] = UINT64_MAX; return 1; /* a block in hand that is outside */
    case 9: t->calls[1] = 1; return 1;                   /* a field that the stage does not use */
    case 10: t->queue[0] = UINT8_MAX; return 1;          /* a queue longer than the threads */
    case 11: t->queue[1] = 1; return 1;                  /* something behind the end of the queue */
    case 12: t->device.running = UINT32_MAX; return 1;   /* no such thread runs */
    default: return 0;
    }
}

/* Damaged contents are no valid state for any call but build, which takes any contents. */
static void damaged_contents(void) {
    for (int way = 0;; way++) {
        lent t = fresh(shape);
        int more = damage(&t, way);
        for (name call = ASK; more && call < NAMES; call++) {
            refused("damaged contents", SALTBALANCE_NOT_VALID, call, &t, shape, plain);
        }
        size_t built = make(BUILD, &t, shape, plain);
        check(built == SALTBALANCE_BUILT, "damaged contents", BUILD, built);
        let_go(&t);
        if (!more) {
            return;
        }
    }
}

/* Whether an answer is a refusal that alters nothing. */
static int alters_nothing(size_t answered) {
    return saltbalance_is_refusal(answered) && answered != SALTBALANCE_NO_ROOM && answered != SALTBALANCE_TIMED_OUT;
}

/* Any bytes at all in tables of the right lengths: each call ends, and a refusal alters nothing. */
static void any_contents(void) {
    uint32_t seed = 2463534242u;
    for (int round = 0; round < 2000; round++) {
        lent t = fresh(shape);
        uint8_t *const tables[] = {t.states, t.owners, (uint8_t *)t.lists, (uint8_t *)t.calls, t.queue};
        const size_t bytes[] = {t.length.states, t.length.owners, 2 * t.length.lists, 8 * t.length.calls, t.length.queue};
        for (int damages = 0; damages <= round % 4; damages++) {
            seed ^= seed << 13, seed ^= seed >> 17, seed ^= seed << 5;
            size_t table = seed % 5;
            tables[table][(seed >> 8) % bytes[table]] = (uint8_t)((seed >> 24) % 8);
        }
        for (name call = ASK; call < NAMES; call++) {
            lent before = copy_of(&t);
            size_t answered = make(call, &t, shape, plain);
            check(!alters_nothing(answered) || same(&t, &before), "any contents", call, answered);
            let_go(&before);
        }
        let_go(&t);
    }
}

/* Numbers outside their limits, each with the refusal that the paper lists. */
static void any_numbers(void) {
    lent t = fresh(shape);
    const size_t outside[] = {2, 255, UINT32_MAX, SIZE_MAX};
    const size_t ids[] = {0, 2, 1 + 2 * 256, 1 + 4096, 1 + 256 + 4 * 4096, SIZE_MAX};
    const int32_t waits[] = {-2, 600001, INT32_MIN, INT32_MAX};
    for (size_t k = 0; k < sizeof outside / sizeof outside[0]; k++) {
        const name calls[] = {ASK, GO_ON, GIVE_BACK, SWITCH};
        for (size_t c = 0; c < sizeof calls / sizeof calls[0]; c++) {
            refused("no such thread", SALTBALANCE_NO_THREAD, calls[c], &t, shape, (numbers){.thread = outside[k]});
        }
        refused("a large size", SALTBALANCE_SIZE_ABOVE_TOP, ASK, &t, shape, (numbers){.size = 64 + outside[k] / 2});
        refused("an offset outside", SALTBALANCE_OFFSET_OUTSIDE, COVER, &t, shape, (numbers){.offset = 64 + outside[k] / 2});
    }
    for (size_t k = 0; k < sizeof ids / sizeof ids[0]; k++) {
        refused("an id outside", SALTBALANCE_ID_OUTSIDE, GIVE_BACK, &t, shape, (numbers){.id = ids[k]});
    }
    for (size_t k = 0; k < sizeof waits / sizeof waits[0]; k++) {
        refused("a wait outside", SALTBALANCE_WAIT_OUTSIDE, ASK, &t, shape, (numbers){.wait = waits[k]});
    }
    refused("a free block", SALTBALANCE_NOT_ALLOCATED, GIVE_BACK, &t, shape, plain);
    refused("no call", SALTBALANCE_NO_CALL, GO_ON, &t, shape, plain);
    refused("another thread", SALTBALANCE_NOT_RUNNING, GO_ON, &t, shape, (numbers){.thread = 1});
    t.device.clock = UINT32_MAX;
    refused("the clock's end", SALTBALANCE_CLOCK_AT_END, TICK, &t, shape, plain);
    let_go(&t);
}

/* Shapes outside their limits, on tables that are right for another shape. */
static void any_shapes(void) {
    const saltbalance_shape wrong[] = {
        {256, 2, 2, 1, 64}, {1, 0, 2, 1, 64}, {1, 9, 2, 1, 64},  {1, 2, 0, 1, 64},  {1, 2, 6, 1, 64},     {1, 2, 2, 0, 64},
        {1, 2, 2, 17, 64},  {1, 2, 2, 1, 0},  {1, 2, 2, 1, 63},  {1, 2, 2, 1, 8},   {1, 2, 2, 1, 65552},
        {SIZE_MAX, SIZE_MAX, SIZE_MAX, SIZE_MAX, SIZE_MAX},
    };
    lent t = fresh(shape);
    for (size_t k = 0; k < sizeof wrong / sizeof wrong[0]; k++) {
        for (name call = BUILD; call < NAMES; call++) {
            refused("a shape outside", SALTBALANCE_SHAPE_NOT_ALLOWED, call, &t, wrong[k], plain);
        }
    }
    let_go(&t);
}

/* Makes a group of checks and shows their number. */
static void group(const char *what, void (*checks)(void)) {
    size_t before = checked;
    checks();
    printf("%s: %zu checks\n", what, checked - before);
}

int main(void) {
    group("null pointers with length 0", null_pointers);
    group("the header's lengths and those beside them", every_length);
    group("damaged contents", damaged_contents);
    group("any contents", any_contents);
    group("any numbers", any_numbers);
    group("shapes outside the limits", any_shapes);
    printf("%zu checks, %zu differ\n", checked, differing);
    return differing == 0 ? EXIT_SUCCESS : EXIT_FAILURE;
}

/* What the header says of the archive, asked of the archive: the version, the sizes at every setting, NULL with length 0, a
 * refused call's bytes, a head that is dropped, and the stack. Prints what it saw; 1 where something is not so. */
#define _GNU_SOURCE
#include "cftree.h"
#include <inttypes.h>
#include <stdio.h>
#include <stdlib.h>
#include <string.h>
#include <ucontext.h>

enum { STACK = 1 << 17, DEEPEST = 5032, OWN = 1024, DIM = 8, M = 24, CAP = 16, ROWS = 400 };

static double floats[CFTREE_FLOATS(DIM, M)], scratch_floats[CFTREE_SCRATCH_FLOATS(DIM, M)], rows[ROWS * DIM], spread[M * DIM];
static uint32_t links[CFTREE_LINKS(CAP, CAP, M)], scratch_links[CFTREE_SCRATCH_LINKS(M)], routes[ROWS];

#define COUNT(a) (sizeof(a) / sizeof((a)[0]))
#define TREE floats, COUNT(floats), links, COUNT(links)
#define SCRATCH scratch_floats, COUNT(scratch_floats), scratch_links, COUNT(scratch_links)

static int failed;

static void expect(const char *what, int holds) {
    if (holds) return;
    printf("header: not so: %s\n", what);
    failed = 1;
}

static cftree_head settings(uint64_t dim, uint64_t branching, uint64_t leaf_cap, uint64_t m) {
    cftree_head head = {.dim = dim, .branching = branching, .leaf_cap = leaf_cap, .max_leaves = m};
    return head;
}

/* The macros and the four calls agree at every setting, and the calls give 0 just outside. */
static unsigned long sizes(void) {
    unsigned long count = 0;
    for (uint64_t dim = 1; dim <= CFTREE_MOST_DIM; dim++)
        for (uint64_t b = CFTREE_LEAST_BRANCHING; b <= CFTREE_MOST_BRANCHING; b++)
            for (uint64_t l = 1; l <= CFTREE_MOST_LEAF_CAP; l++)
                for (uint64_t m = 1; m <= CFTREE_MOST_LEAVES; m++, count++) {
                    cftree_head h = settings(dim, b, l, m);
                    expect("CFTREE_FLOATS", cftree_floats_needed(h) == CFTREE_FLOATS(dim, m));
                    expect("CFTREE_LINKS", cftree_links_needed(h) == CFTREE_LINKS(b, l, m));
                    expect("CFTREE_SCRATCH_FLOATS", cftree_scratch_floats_needed(h) == CFTREE_SCRATCH_FLOATS(dim, m));
                    expect("CFTREE_SCRATCH_LINKS", cftree_scratch_links_needed(h) == CFTREE_SCRATCH_LINKS(m));
                    if (failed) return count;
                }
    expect("0 outside the limits", cftree_floats_needed(settings(9, 2, 1, 1)) + cftree_links_needed(settings(1, 1, 1, 1)) +
           cftree_scratch_floats_needed(settings(1, 2, 17, 1)) + cftree_scratch_links_needed(settings(1, 2, 1, 257)) == 0);
    return count;
}

/* A tree of one channel with the rows 0, 4, 5, of which the second one's head is kept or dropped: its threshold. */
static double threshold(int kept) {
    const double zero = 0.0, four = 4.0, five = 5.0;
    cftree_head head = cftree_create(settings(1, 2, 1, 1), TREE).head;
    head = cftree_insert_row(head, TREE, SCRATCH, &zero, 1).head;
    cftree_outcome second = cftree_insert_row(head, TREE, SCRATCH, &four, 1);
    cftree_outcome third = cftree_insert_row(kept ? second.head : head, TREE, SCRATCH, &five, 1);
    expect("a dropped head is not refused", third.answer.number == CFTREE_ACCEPTED);
    return third.head.threshold;
}

/* NULL with length 0 in every place: a batch of no rows is accepted, a buffer of no words is ROOM. */
static void null(void) {
    cftree_head h = cftree_create(settings(2, 2, 2, 3), TREE).head;
    expect("create", cftree_create(h, NULL, 0, NULL, 0).answer.number == CFTREE_ROOM);
    expect("row", cftree_insert_row(h, TREE, SCRATCH, NULL, 0).answer.number == CFTREE_SHAPE);
    expect("batch", cftree_insert_batch(h, TREE, SCRATCH, NULL, 0).answer.number == CFTREE_ACCEPTED);
    expect("refit", cftree_refit(h, TREE, SCRATCH, NULL, 0).answer.number == CFTREE_ACCEPTED);
    expect("batch, no room", cftree_insert_batch(h, NULL, 0, NULL, 0, NULL, 0, NULL, 0, NULL, 0).answer.number == CFTREE_ROOM);
    expect("refit, no room", cftree_refit(h, NULL, 0, NULL, 0, NULL, 0, NULL, 0, NULL, 0).answer.number == CFTREE_ROOM);
    expect("batch, no scratch", cftree_insert_batch(h, TREE, NULL, 0, NULL, 0, rows, 2).answer.number == CFTREE_ROOM);
    expect("route", cftree_route(h, TREE, NULL, 0, NULL, 0).number == CFTREE_ACCEPTED);
    expect("spread", cftree_spread(h, TREE, NULL, 0).number == CFTREE_ACCEPTED);
    expect("validate", cftree_validate(h, NULL, 0, NULL, 0).number == CFTREE_ROOM);
    expect("entries", cftree_entries(h, NULL, 0, NULL, 0).answer.number == CFTREE_ROOM);
}

/* A refused call leaves every byte, those of a NaN with a sign and a payload too. */
static void refused(void) {
    static double floats_before[COUNT(floats)], scratch_before[COUNT(scratch_floats)];
    const uint64_t nan = UINT64_C(0xfff4000000000123);
    cftree_head h = cftree_create(settings(2, 2, 2, 3), TREE).head;
    memcpy(&scratch_floats[1], &nan, sizeof nan);
    memcpy(&floats[COUNT(floats) - 1], &nan, sizeof nan);
    memcpy(floats_before, floats, sizeof floats);
    memcpy(scratch_before, scratch_floats, sizeof scratch_floats);
    cftree_outcome o = cftree_insert_batch(h, TREE, SCRATCH, rows, 3);
    expect("SHAPE, 2 and 1", o.answer.number == CFTREE_SHAPE && o.answer.first == 2 && o.answer.second == 1);
    expect("the head comes back", memcmp(&o.head, &h, 92) == 0);
    expect("every byte stays", memcmp(floats, floats_before, sizeof floats) == 0 &&
           memcmp(scratch_floats, scratch_before, sizeof scratch_floats) == 0);
    expect("its name", strcmp(cftree_refusal_name(o.answer.number), "SHAPE") == 0);
}

/* Rows that fill trees of many shapes, with splits, rebuilds of both kinds, routes, spreads and refits. */
static void histories(void) {
    for (unsigned i = 0; i < COUNT(rows); i++) rows[i] = (double)((i * 7919u + i / DIM * 104729u) % 1009u) / 8.0;
    for (uint64_t b = 2; b <= CAP; b += 7)
        for (uint64_t l = 1; l <= CAP; l += 5)
            for (uint32_t kind = 0; kind < 12; kind++) {
                cftree_head h = settings(DIM, b, l, M);
                h.feature = kind % 2, h.dist = kind / 2, h.abs = 5 - kind / 2;
                cftree_outcome o = cftree_create(h, TREE);
                for (unsigned r = 0; r < ROWS / 2; r++) o = cftree_insert_row(o.head, TREE, SCRATCH, &rows[r * DIM], DIM);
                o = cftree_insert_batch(o.head, TREE, SCRATCH, rows, COUNT(rows));
                o = cftree_refit(o.head, TREE, SCRATCH, rows, COUNT(rows));
                expect("histories are accepted", o.answer.number == CFTREE_ACCEPTED && o.head.entries >= 1 &&
                       cftree_route(o.head, TREE, rows, COUNT(rows), routes, COUNT(routes)).number == CFTREE_ACCEPTED &&
                       cftree_spread(o.head, TREE, spread, COUNT(spread)).number == CFTREE_ACCEPTED &&
                       cftree_entries(o.head, TREE).answer.number == CFTREE_ACCEPTED);
            }
}

/* How much of a painted stack `histories` and the calls beneath it use. */
static size_t deepest(void) {
    static unsigned char stack[STACK];
    static ucontext_t here, there;
    size_t untouched = 0;
    memset(stack, 0xa5, sizeof stack);
    getcontext(&there);
    there.uc_stack.ss_sp = stack;
    there.uc_stack.ss_size = sizeof stack;
    there.uc_link = &here;
    makecontext(&there, histories, 0);
    swapcontext(&here, &there);
    while (untouched < sizeof stack && stack[untouched] == 0xa5) untouched++;
    return sizeof stack - untouched;
}

int main(void) {
    expect("one version", cftree_version() == CFTREE_VERSION);
    unsigned long settings_seen = sizes();
    double kept = threshold(1), dropped = threshold(0);
    expect("threshold 16 with the head kept, 9 with it dropped", kept > 16.0 && kept < 16.1 && dropped > 9.0 && dropped < 9.1);
    null();
    refused();
    size_t bytes = deepest();
    expect("the stack that the header says", bytes <= DEEPEST + OWN);
    printf("header: version %" PRIu32 ", sizes of %lu settings, %zu bytes of stack with the caller's own\n", cftree_version(),
           settings_seen, bytes);
    return failed;
}

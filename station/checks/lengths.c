/* Lengths have 64 bits on a machine whose addresses have 32: a length whose high word decides. Nothing is read of rows that
 * are refused, and nothing of a buffer past the words that it needs, so that no such length leads outside real memory. */
#include "checks.h"

#define HIGH (UINT64_C(1) << 32)

/* A buffer of 2^32 words is long enough, and so is one of 2^32 more than it needs less one: their low words are too short. */
static void check_long_enough(const char *name, changing *call) {
    static const uint64_t longer[4][4] = {{HIGH, LINKS, SCRATCH_FLOATS, SCRATCH_LINKS},
                                          {FLOATS, HIGH + LINKS - 1, SCRATCH_FLOATS, SCRATCH_LINKS},
                                          {FLOATS, LINKS, HIGH, SCRATCH_LINKS},
                                          {HIGH + FLOATS - 1, HIGH, HIGH + SCRATCH_FLOATS - 1, HIGH + SCRATCH_LINKS - 1}};
    begin(name);
    for (unsigned k = 0; k < 4; k++) {
        const uint64_t *n = longer[k];
        cftree_head h = two_entries();
        cftree_outcome o = call(h, floats, n[0], links, n[1], scratch_floats, n[2], scratch_links, n[3], rows, DIM);
        same_answer("answer", o.answer, CFTREE_ACCEPTED, 0, 0);
        holds("words beside the buffers", beside_holds());
    }
}

/* 2^32 numbers are no whole rows of 3: 1 is left over. 3 * 2^53 + 3 are 2^53 + 1 rows, one more than a tree counts. */
static void check_rows(const char *name, changing *call) {
    const uint64_t too_many = 3 * CFTREE_MOST_ROWS + 3;
    cftree_head h = two_entries();
    begin(name);
    same_answer("2^32 numbers", call(h, TREE, SCRATCH, rows, HIGH).answer, CFTREE_SHAPE, DIM, 1);
    same_answer("2^33 numbers", call(h, TREE, SCRATCH, rows, 2 * HIGH).answer, CFTREE_SHAPE, DIM, 2);
    same_answer("2^64 - 2 numbers", call(h, TREE, SCRATCH, rows, UINT64_MAX - 1).answer, CFTREE_SHAPE, DIM, 2);
    same_answer("2^53 + 1 rows", call(h, TREE, SCRATCH, rows, too_many).answer, CFTREE_FULL, 0, 0);
    holds("words beside the buffers", beside_holds());
}

static void check_one_row(void) {
    cftree_head h = two_entries();
    begin("insert_row, a row of 2^32 numbers and more");
    same_answer("2^32 + 3", cftree_insert_row(h, TREE, SCRATCH, rows, HIGH + DIM).answer, CFTREE_SHAPE, DIM, HIGH + DIM);
    same_answer("2^32", cftree_insert_row(h, TREE, SCRATCH, rows, HIGH).answer, CFTREE_SHAPE, DIM, HIGH);
}

static void check_reading(void) {
    cftree_head h = two_entries();
    begin("lengths of 2^32 and more in the calls that read");
    same_answer("create, long enough", cftree_create(h, floats, HIGH, links, HIGH + 1).answer, CFTREE_ACCEPTED, 0, 0);
    h = two_entries();
    same_answer("validate, long enough", cftree_validate(h, floats, HIGH, links, HIGH + 1), CFTREE_ACCEPTED, 0, 0);
    same_answer("entries, long enough", cftree_entries(h, floats, HIGH, links, HIGH + 1).answer, CFTREE_ACCEPTED, 0, 0);
    same_answer("spread, long enough", cftree_spread(h, floats, HIGH, links, HIGH, spread, HIGH), CFTREE_ACCEPTED, 0, 0);
    same_answer("route, long enough", cftree_route(h, floats, HIGH, links, HIGH, rows, ROWS * DIM, routes, HIGH),
                CFTREE_ACCEPTED, 0, 0);
    same("entries of the two rows", (uint64_t)routes[0] << 32 | routes[1], 1);
    same_answer("route, 2^32 numbers", cftree_route(h, TREE, rows, HIGH, routes, ROWS), CFTREE_SHAPE, DIM, 1);
    same_answer("route, 2^32 rows", cftree_route(h, TREE, rows, DIM * HIGH, routes, ROWS), CFTREE_OUTPUT, 0, 0);
    holds("words beside the buffers", beside_holds());
}

void check_lengths(void) {
    check_long_enough("insert_row, buffers of 2^32 words and more", cftree_insert_row);
    check_long_enough("insert_batch, buffers of 2^32 words and more", cftree_insert_batch);
    check_long_enough("refit, buffers of 2^32 words and more", cftree_refit);
    check_rows("insert_batch, 2^32 numbers and more", cftree_insert_batch);
    check_rows("refit, 2^32 numbers and more", cftree_refit);
    check_one_row();
    check_reading();
}

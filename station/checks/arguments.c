/* Every function with arguments of which none may stand in another's place: the exact lengths are all different, so that
 * one short by a word, or two of them exchanged, is refused; and what comes out shows each pointer. */
#include "checks.h"

static const struct {
    const char *name;
    changing *call;
    uint64_t rows_len;
} changes[] = {{"insert_row", cftree_insert_row, DIM},
               {"insert_batch", cftree_insert_batch, ROWS * DIM},
               {"refit", cftree_refit, ROWS * DIM}};

/* Word k of entry e, where the listing says that it stands. */
static double entry_word(cftree_head head, unsigned e, unsigned k) {
    cftree_listing l = cftree_entries(head, TREE);
    return floats[l.first + e * l.width + k];
}

static int scratch_is_zero(void) {
    uint64_t set = 0;
    for (unsigned i = 0; i < SCRATCH_FLOATS; i++) set |= bits_of(scratch_floats[i]);
    for (unsigned i = 0; i < SCRATCH_LINKS; i++) set |= scratch_links[i];
    return set == 0;
}

/* Rows that are in the tree already: the weights grow by the call's rows, or a refit leaves them at 1. */
static void check_change(unsigned which) {
    cftree_head head = two_entries();
    cftree_outcome o = changes[which].call(head, TREE, SCRATCH, rows, changes[which].rows_len);
    begin(changes[which].name);
    same_answer("answer", o.answer, CFTREE_ACCEPTED, 0, 0);
    same("entries", o.head.entries, ROWS);
    same_float("weight of the first", entry_word(o.head, 0, 0), bits_of(which == 2 ? 1.0 : 2.0));
    same_float("weight of the second", entry_word(o.head, 1, 0), bits_of(which == 1 ? 2.0 : 1.0));
    for (unsigned i = 0; i < DIM; i++) {
        same_float("a mean of the first", entry_word(o.head, 0, 1 + i), bits_of(1.0 + i));
        same_float("a mean of the second", entry_word(o.head, 1, 1 + i), bits_of(40.0 + 10.0 * i));
    }
    holds("scratch is zero", scratch_is_zero());
    holds("words beside the buffers", beside_holds());
}

/* Each length a word short. */
static void check_change_short(unsigned which) {
    changing *call = changes[which].call;
    uint64_t len = changes[which].rows_len;
    cftree_head h = two_entries();
    same_answer("floats short", call(h, floats, FLOATS - 1, links, LINKS, SCRATCH, rows, len).answer, CFTREE_ROOM, 0, 0);
    same_answer("links short", call(h, floats, FLOATS, links, LINKS - 1, SCRATCH, rows, len).answer, CFTREE_ROOM, 0, 0);
    same_answer("scratch floats short",
                call(h, TREE, scratch_floats, SCRATCH_FLOATS - 1, scratch_links, SCRATCH_LINKS, rows, len).answer,
                CFTREE_ROOM, 0, 0);
    same_answer("scratch links short",
                call(h, TREE, scratch_floats, SCRATCH_FLOATS, scratch_links, SCRATCH_LINKS - 1, rows, len).answer,
                CFTREE_ROOM, 0, 0);
    same_answer("rows short", call(h, TREE, SCRATCH, rows, len - 1).answer, CFTREE_SHAPE, DIM, DIM - 1);
}

static void check_create(void) {
    cftree_head h = two_entries();
    cftree_outcome o = cftree_create(h, TREE);
    begin("create");
    same_answer("answer", o.answer, CFTREE_ACCEPTED, 0, 0);
    same("nodes", o.head.nodes, 1);
    same("entries, root, rebuilds, merged", o.head.entries | o.head.root | o.head.rebuilds | o.head.merged, 0);
    same_answer("an empty tree", cftree_validate(o.head, TREE), CFTREE_ACCEPTED, 0, 0);
    same_answer("floats short", cftree_create(h, floats, FLOATS - 1, links, LINKS).answer, CFTREE_ROOM, 0, 0);
    same_answer("links short", cftree_create(h, floats, FLOATS, links, LINKS - 1).answer, CFTREE_ROOM, 0, 0);
    holds("words beside the buffers", beside_holds());
}

static void check_reading(void) {
    cftree_head h = two_entries();
    begin("validate");
    same_answer("answer", cftree_validate(h, TREE), CFTREE_ACCEPTED, 0, 0);
    same_answer("floats short", cftree_validate(h, floats, FLOATS - 1, links, LINKS), CFTREE_ROOM, 0, 0);
    same_answer("links short", cftree_validate(h, floats, FLOATS, links, LINKS - 1), CFTREE_ROOM, 0, 0);
    begin("entries");
    same_answer("answer", cftree_entries(h, TREE).answer, CFTREE_ACCEPTED, 0, 0);
    same_answer("floats short", cftree_entries(h, floats, FLOATS - 1, links, LINKS).answer, CFTREE_ROOM, 0, 0);
    same_answer("links short", cftree_entries(h, floats, FLOATS, links, LINKS - 1).answer, CFTREE_ROOM, 0, 0);
    links[2] ^= 1;
    same_answer("links are read", cftree_validate(h, TREE), CFTREE_TREE, 4, 0);
    links[2] ^= 1;
    floats[CFTREE_NODES(M) * (1 + 2 * DIM)] = 1.5;
    same_answer("floats are read", cftree_validate(h, TREE), CFTREE_TREE, 7, 0);
}

static void check_route(void) {
    cftree_head h = two_entries();
    double swapped[ROWS * DIM];
    for (unsigned i = 0; i < ROWS * DIM; i++) swapped[i] = rows[(i + DIM) % (ROWS * DIM)];
    begin("route");
    same_answer("answer", cftree_route(h, TREE, swapped, ROWS * DIM, routes, ROWS), CFTREE_ACCEPTED, 0, 0);
    same("the second row's entry", routes[0], 1);
    same("the first row's entry", routes[1], 0);
    same_answer("floats short", cftree_route(h, floats, FLOATS - 1, links, LINKS, rows, DIM, routes, 1), CFTREE_ROOM, 0, 0);
    same_answer("links short", cftree_route(h, floats, FLOATS, links, LINKS - 1, rows, DIM, routes, 1), CFTREE_ROOM, 0, 0);
    same_answer("rows short", cftree_route(h, TREE, rows, DIM - 1, routes, 1), CFTREE_SHAPE, DIM, DIM - 1);
    same_answer("output short", cftree_route(h, TREE, rows, ROWS * DIM, routes, 1), CFTREE_OUTPUT, 0, 0);
    h = cftree_create(settings(), TREE).head;
    same_answer("an empty tree", cftree_route(h, TREE, rows, DIM, routes, 1), CFTREE_EMPTY, 0, 0);
    holds("words beside the buffers", beside_holds());
}

static void check_spread(void) {
    cftree_head h = two_entries();
    rows[DIM] = 7.0;
    h = cftree_refit(h, TREE, SCRATCH, rows, ROWS * DIM).head;
    h = cftree_insert_row(h, TREE, SCRATCH, rows, DIM).head;
    begin("spread");
    same_answer("answer", cftree_spread(h, TREE, spread, ROWS * DIM), CFTREE_ACCEPTED, 0, 0);
    same_float("of an entry with one row twice", spread[0], 0);
    same_answer("floats short", cftree_spread(h, floats, FLOATS - 1, links, LINKS, spread, ROWS * DIM), CFTREE_ROOM, 0, 0);
    same_answer("links short", cftree_spread(h, floats, FLOATS, links, LINKS - 1, spread, ROWS * DIM), CFTREE_ROOM, 0, 0);
    same_answer("output short", cftree_spread(h, TREE, spread, ROWS * DIM - 1), CFTREE_OUTPUT, 0, 0);
    holds("words beside the buffers", beside_holds());
}

void check_arguments(void) {
    check_create();
    for (unsigned which = 0; which < sizeof changes / sizeof changes[0]; which++) {
        check_change(which);
        check_change_short(which);
    }
    check_reading();
    check_route();
    check_spread();
}

/* How much stack each call takes, seen on a painted stack: every call of the library on trees of many shapes, and of each the
 * deepest byte below its entry that was written. Prints a line a call, name and bytes.
 *   bench/painted runs it for every target and holds it against the figures of bench/stack. */
#include "cftree.h"
#include "serial.h"

enum { PAINTED = 8192, DIM = 8, M = 24, CAP = 16, ROWS = 200 };
static const uint32_t PAINT = 0xa5a5a5a5;

static double floats[CFTREE_FLOATS(DIM, M)], scratch_floats[CFTREE_SCRATCH_FLOATS(DIM, M)], rows[ROWS * DIM], spread[M * DIM];
static uint32_t links[CFTREE_LINKS(CAP, CAP, M)], scratch_links[CFTREE_SCRATCH_LINKS(M)], routes[ROWS];
static cftree_outcome tree;
static cftree_answer answer;
static cftree_listing listing;
static uint64_t number;
static int refused;

#define COUNT(a) (sizeof(a) / sizeof((a)[0]))
#define TREE floats, COUNT(floats), links, COUNT(links)
#define SCRATCH scratch_floats, COUNT(scratch_floats), scratch_links, COUNT(scratch_links)

enum {
    VERSION, FLOATS, LINKS, SCRATCH_FLOATS, SCRATCH_LINKS, CREATE, ROW, ROW_PLAIN, BATCH, REFIT, VALIDATE, ENTRIES, ROUTE,
    SPREAD, CALLS
};
static const char *const names[CALLS] = {
    "cftree_version", "cftree_floats_needed", "cftree_links_needed", "cftree_scratch_floats_needed",
    "cftree_scratch_links_needed", "cftree_create", "cftree_insert_row", "cftree_insert_row without a rebuild",
    "cftree_insert_batch", "cftree_refit", "cftree_validate", "cftree_entries", "cftree_route", "cftree_spread",
};
static uintptr_t deepest[CALLS];

#define INLINE static inline __attribute__((always_inline))

/* The stack as the calls of a function find it: compilers that lay out arguments once don't move it between calls. */
INLINE uintptr_t stack(void) {
    uintptr_t at;
#ifdef __x86_64__
    __asm volatile("mov %%rsp, %0" : "=r"(at));
#else
    __asm volatile("mov %0, sp" : "=r"(at));
#endif
    return at;
}

/* Inlined, so that painting and looking take no stack themselves. */
INLINE uintptr_t paint(void) {
    uintptr_t at = stack();
    for (uintptr_t p = at - PAINTED; p < at; p += sizeof PAINT) *(volatile uint32_t *)p = PAINT;
    return at;
}

INLINE void look(unsigned call, uintptr_t at) {
    uintptr_t p = at - PAINTED;
    while (p < at && *(volatile uint32_t *)p == PAINT) p += sizeof PAINT;
    if (at - p > deepest[call]) deepest[call] = at - p;
}

#define SEEN(call, takes) \
    do { \
        uintptr_t at = paint(); \
        takes; \
        look(call, at); \
    } while (0)

static void sizes(cftree_head head) {
    SEEN(VERSION, number = cftree_version());
    SEEN(FLOATS, number = cftree_floats_needed(head));
    SEEN(LINKS, number = cftree_links_needed(head));
    SEEN(SCRATCH_FLOATS, number = cftree_scratch_floats_needed(head));
    SEEN(SCRATCH_LINKS, number = cftree_scratch_links_needed(head));
}

static void changed(void) { refused |= tree.answer.number != CFTREE_ACCEPTED; }

static void insert_row(const double *row) {
    uint64_t rebuilds = tree.head.rebuilds;
    uintptr_t before = deepest[ROW];
    deepest[ROW] = 0;
    SEEN(ROW, tree = cftree_insert_row(tree.head, TREE, SCRATCH, row, DIM));
    if (tree.head.rebuilds == rebuilds && deepest[ROW] > deepest[ROW_PLAIN]) deepest[ROW_PLAIN] = deepest[ROW];
    if (before > deepest[ROW]) deepest[ROW] = before;
    changed();
}

static void look_at_tree(void) {
    SEEN(VALIDATE, answer = cftree_validate(tree.head, TREE));
    refused |= answer.number != CFTREE_ACCEPTED;
    SEEN(ENTRIES, listing = cftree_entries(tree.head, TREE));
    refused |= listing.answer.number != CFTREE_ACCEPTED;
    SEEN(ROUTE, answer = cftree_route(tree.head, TREE, rows, COUNT(rows), routes, COUNT(routes)));
    refused |= answer.number != CFTREE_ACCEPTED;
    SEEN(SPREAD, answer = cftree_spread(tree.head, TREE, spread, COUNT(spread)));
    refused |= answer.number != CFTREE_ACCEPTED;
}

/* A tree from nothing: single rows, a batch and a refit, looked at after each. */
static void history(cftree_head head) {
    sizes(head);
    SEEN(CREATE, tree = cftree_create(head, TREE));
    changed();
    for (unsigned r = 0; r < ROWS; r++) insert_row(&rows[r * DIM]);
    look_at_tree();
    SEEN(BATCH, tree = cftree_insert_batch(tree.head, TREE, SCRATCH, rows, COUNT(rows)));
    changed();
    look_at_tree();
    SEEN(REFIT, tree = cftree_refit(tree.head, TREE, SCRATCH, rows, COUNT(rows)));
    changed();
    look_at_tree();
}

int main(void) {
    serial_start();
    for (unsigned i = 0; i < COUNT(rows); i++) rows[i] = (double)((i * 7919u + i / DIM * 104729u) % 1009u) / 8.0;
    for (uint64_t b = CFTREE_LEAST_BRANCHING; b <= CAP; b += 7)
        for (uint64_t l = 1; l <= CAP; l += 5)
            for (uint32_t kind = 0; kind < 12; kind++) {
                cftree_head head = {.dim = DIM, .branching = b, .leaf_cap = l, .max_leaves = M,
                                    .feature = kind % 2, .dist = kind / 2, .abs = 5 - kind / 2};
                history(head);
            }
    for (unsigned i = 0; i < CALLS; i++) {
        serial_put(names[i]);
        serial_put("\t");
        serial_number(deepest[i]);
        serial_put("\n");
    }
    if (refused) serial_put("a call was refused\n");
    return refused;
}

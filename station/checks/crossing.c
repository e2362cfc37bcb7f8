/* How structs by value cross: every field of a head comes back as it went, and every field is read where it stands; every
 * number of an answer, an outcome and a listing is given where the header has it. */
#include "checks.h"

enum { FIELDS = 13 };

static const char *const names[FIELDS] = {"dim",      "branching", "leaf_cap", "max_leaves", "nodes",   "entries", "root",
                                          "rebuilds", "merged",    "threshold", "feature",   "dist",    "abs"};

/* A field by its number; the threshold by its bits. */
static uint64_t field(const cftree_head *h, unsigned k) {
    const uint64_t all[FIELDS] = {h->dim,  h->branching, h->leaf_cap, h->max_leaves,         h->nodes,   h->entries,
                                  h->root, h->rebuilds,  h->merged,   bits_of(h->threshold), h->feature, h->dist,
                                  h->abs};
    return all[k];
}

static cftree_head with(cftree_head h, unsigned k, uint64_t value) {
    uint64_t *const wide[9] = {&h.dim,     &h.branching, &h.leaf_cap, &h.max_leaves, &h.nodes,
                               &h.entries, &h.root,      &h.rebuilds, &h.merged};
    uint32_t *const narrow[3] = {&h.feature, &h.dist, &h.abs};
    if (k < 9) *wide[k] = value;
    else if (k == 9) h.threshold = float_of(value);
    else *narrow[k - 10] = (uint32_t)value;
    return h;
}

/* A head that is refused, no two words of it alike; the threshold is a NaN that signals. */
static cftree_head odd(void) {
    cftree_head h = {0};
    for (unsigned k = 0; k < FIELDS; k++) h = with(h, k, UINT64_C(0x0700000013000000) * (k + 1) + k);
    h.threshold = float_of(UINT64_C(0xfff0123456789abc));
    return h;
}

static void check_back(const char *name, cftree_outcome seen) {
    const cftree_head sent = odd();
    begin(name);
    same_answer("answer", seen.answer, CFTREE_SETTINGS, 0, 0);
    for (unsigned k = 0; k < FIELDS; k++) same(names[k], field(&seen.head, k), field(&sent, k));
}

static uint64_t needed(unsigned k, cftree_head h) {
    switch (k) {
    case 0: return cftree_floats_needed(h);
    case 1: return cftree_links_needed(h);
    case 2: return cftree_scratch_floats_needed(h);
    default: return cftree_scratch_links_needed(h);
    }
}

/* Settings just outside their limits, by their low word and by their high word; all four sizes are then 0. */
static void check_settings_read(void) {
    static const struct {
        unsigned field;
        uint64_t value;
    } bad[] = {{0, 0},  {0, 9},   {0, UINT64_C(1) << 32 | DIM},       {1, 1}, {1, 17}, {1, UINT64_C(1) << 32 | BRANCHING},
               {2, 0},  {2, 17},  {2, UINT64_C(1) << 32 | LEAF_CAP},  {3, 0}, {3, 257}, {3, UINT64_C(1) << 32 | M},
               {10, 2}, {11, 6},  {12, 6},                            {9, UINT64_C(0x8000000000000001)},
               {9, UINT64_C(0xbff0000000000000)},                     {9, UINT64_C(0x7ff0000000000000)},
               {9, UINT64_C(0x7ff0000000000001)}};
    static const uint64_t sizes[4] = {FLOATS, LINKS, SCRATCH_FLOATS, SCRATCH_LINKS};
    static const uint64_t good[3] = {0, UINT64_C(0x8000000000000000), UINT64_C(0x7fefffffffffffff)};
    begin("the sizes needed");
    for (unsigned k = 0; k < 4; k++)
        for (unsigned i = 0; i < 3; i++) same("a size needed", needed(k, with(settings(), 9, good[i])), sizes[k]);
    begin("each setting of a head is read where it stands");
    for (unsigned i = 0; i < sizeof bad / sizeof bad[0]; i++) {
        uint64_t sum = 0;
        for (unsigned k = 0; k < 4; k++) sum |= needed(k, with(settings(), bad[i].field, bad[i].value));
        same(names[bad[i].field], sum, 0);
    }
}

/* Counters that the tree check refuses, by their low word and by their high word. */
static void check_counters_read(void) {
    static const struct {
        unsigned field;
        uint64_t value, condition;
    } bad[] = {{4, 0, 1}, {4, UINT64_C(1) << 32 | 1, 1}, {5, M + 1, 1}, {5, UINT64_C(1) << 32 | ROWS, 1},
               {6, 1, 2}, {6, UINT64_C(1) << 32, 2},     {8, M, 8},     {8, UINT64_C(1) << 32, 8}};
    cftree_head head = two_entries();
    begin("each counter of a head is read where it stands");
    same_answer("the tree of the checks", cftree_validate(head, TREE), CFTREE_ACCEPTED, 0, 0);
    for (unsigned i = 0; i < sizeof bad / sizeof bad[0]; i++)
        same_answer(names[bad[i].field], cftree_validate(with(head, bad[i].field, bad[i].value), TREE), CFTREE_TREE,
                    bad[i].condition, 0);
}

/* A rebuild adds 1 to a count whose low word is full, and grows the threshold. */
static void check_rebuilds_read(void) {
    cftree_head head = {.dim = 1, .branching = 2, .leaf_cap = 1, .max_leaves = 1};
    cftree_outcome o = cftree_create(head, TREE);
    o.head.rebuilds = UINT64_C(0x11111111ffffffff);
    o = cftree_insert_row(o.head, TREE, SCRATCH, &(const double){0.0}, 1);
    o = cftree_insert_row(o.head, TREE, SCRATCH, &(const double){4.0}, 1);
    begin("a count and a threshold that a call changes");
    same("rebuilds, a carry", o.head.rebuilds, UINT64_C(0x1111111200000000));
    same_float("threshold", o.head.threshold, UINT64_C(0x4030000000000004));
}

/* Two choices with the same limits: the row 2.5 is within 3 of the row 0 by abs, and beyond it by dist, which is squared. */
static void check_choices(void) {
    cftree_head head = {.dim = 1, .branching = 2, .leaf_cap = 2, .max_leaves = 2, .threshold = 3.0,
                        .dist = CFTREE_CENTROID_EUCLIDEAN, .abs = CFTREE_CENTROID_MANHATTAN};
    const double both[2] = {0.0, 2.5};
    head = cftree_create(head, TREE).head;
    begin("abs is held against the threshold, not dist");
    same("entries", cftree_insert_batch(head, TREE, SCRATCH, both, 2).head.entries, 1);
}

static void check_listing(void) {
    cftree_listing seen = cftree_entries(two_entries(), TREE);
    begin("the numbers of a listing");
    same_answer("answer", seen.answer, CFTREE_ACCEPTED, 0, 0);
    same("entries", seen.entries, ROWS);
    same("first", seen.first, CFTREE_NODES(M) * (1 + 2 * DIM));
    same("width", seen.width, 1 + 2 * DIM);
    same("means", seen.means, DIM);
    same("deviations", seen.deviations, 1);
    seen = cftree_entries(with(two_entries(), 8, M), TREE);
    same_answer("answer, refused", seen.answer, CFTREE_TREE, 8, 0);
    same("the rest, refused", seen.entries | seen.first | seen.width | seen.means | seen.deviations, 0);
}

void check_crossing(void) {
    begin("the version");
    same("number", cftree_version(), CFTREE_VERSION);
    check_back("a head back from create", cftree_create(odd(), TREE));
    check_back("a head back from insert_row", cftree_insert_row(odd(), TREE, SCRATCH, rows, DIM));
    check_back("a head back from insert_batch", cftree_insert_batch(odd(), TREE, SCRATCH, rows, DIM));
    check_back("a head back from refit", cftree_refit(odd(), TREE, SCRATCH, rows, DIM));
    check_settings_read();
    check_counters_read();
    check_rebuilds_read();
    check_choices();
    check_listing();
}

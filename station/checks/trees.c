/* Floats through the library's calls: roundings, subnormals, infinities, NaNs and fused steps that a summary, a threshold or
 * a route would show. The expected bits are the Rust original's. */
#include "checks.h"

#define LARGEST 0x7fefffffffffffff

/* Rows into a tree of at most one entry: its threshold, weight, means, deviations, and the spread of its first channel. */
static const struct {
    const char *name;
    uint64_t dim;
    uint32_t feature;
    uint64_t threshold;
    unsigned rows;
    uint64_t numbers[6], expected[7];
} trees[] = {
    {"a tie to the even neighbour below", 1, 0, LARGEST, 2,
     {0x3ff0000000000000, 0x3ff0000000000001},
     {LARGEST, 0x4000000000000000, 0x3ff0000000000000, 0x3960000000000000, 0x3950000000000000}},
    {"a tie to the even neighbour above", 1, 0, LARGEST, 2,
     {0x3ff0000000000000, 0x3ff0000000000003},
     {LARGEST, 0x4000000000000000, 0x3ff0000000000002, 0x3992000000000000, 0x3982000000000000}},
    {"a tie to the even neighbour, negative and nearer to 0", 1, 0, LARGEST, 2,
     {0xbff0000000000000, 0xbff0000000000001},
     {LARGEST, 0x4000000000000000, 0xbff0000000000000, 0x3960000000000000, 0x3950000000000000}},
    {"a tie to the even neighbour, negative and farther from 0", 1, 0, LARGEST, 2,
     {0xbff0000000000000, 0xbff0000000000003},
     {LARGEST, 0x4000000000000000, 0xbff0000000000002, 0x3992000000000000, 0x3982000000000000}},
    {"a quotient rounded down", 1, 0, LARGEST, 3,
     {0, 0, 0x3ff0000000000000},
     {LARGEST, 0x4008000000000000, 0x3fd5555555555555, 0x3fe5555555555556, 0x3fcc71c71c71c71d}},
    {"a quotient rounded up", 1, 0, LARGEST, 5,
     {0, 0, 0, 0, 0x3ff0000000000000},
     {LARGEST, 0x4014000000000000, 0x3fc999999999999a, 0x3fe999999999999a, 0x3fc47ae147ae147b}},
    {"the least subnormal as a row", 1, 0, LARGEST, 1,
     {0x0000000000000001},
     {LARGEST, 0x3ff0000000000000, 0x0000000000000001, 0, 0}},
    {"a mean of two subnormals", 1, 0, LARGEST, 2,
     {0x0000000000000001, 0x0000000000000003},
     {LARGEST, 0x4000000000000000, 0x0000000000000002, 0, 0}},
    {"a subnormal difference of normal rows", 1, 0, LARGEST, 2,
     {0x0010000000000000, 0x0010000000000002},
     {LARGEST, 0x4000000000000000, 0x0010000000000001, 0, 0}},
    {"a subnormal square", 1, 0, LARGEST, 2,
     {0, 0x1eb67e9c127b6e74},
     {LARGEST, 0x4000000000000000, 0x1ea67e9c127b6e74, 0x00000000000003f4, 0x00000000000001fa}},
    {"a difference of exponents 33 apart", 1, 0, LARGEST, 2,
     {0x3ff0000000000000, 0x3de5f915ee88c5d8},
     {LARGEST, 0x4000000000000000, 0x3fe00000000afc8b, 0x3fdfffffffd40dd4, 0x3fcfffffffd40dd4}},
    {"a mean just below a power of two, a step of an exponent 33 less", 1, 0, LARGEST, 3,
     {0x4090000000000000, 0x4090000000000000, 0x408fffffffc5a13e},
     {LARGEST, 0x4008000000000000, 0x408fffffffec8b15, 0x3d41bec3f9640556, 0x3d27a9054c855c73}},
    {"infinite rows", 1, 0, LARGEST, 2,
     {0x7ff0000000000000, 0xbff0000000000000},
     {LARGEST, 0x4000000000000000, 0x7ff8000000000000, 0x7ff8000000000000, 0x7ff8000000000000}},
    {"an infinite row", 1, 0, LARGEST, 1,
     {0x7ff0000000000000},
     {LARGEST, 0x3ff0000000000000, 0x7ff0000000000000, 0x7ff8000000000000, 0x7ff8000000000000}},
    {"a row that is no number", 1, 0, LARGEST, 2,
     {0x7ff8000000000000, 0x3ff0000000000000},
     {LARGEST, 0x4000000000000000, 0x7ff8000000000000, 0x7ff8000000000000, 0x7ff8000000000000}},
    {"a square past the largest float", 1, 0, LARGEST, 2,
     {0, 0x6974e718d7d7625a},
     {LARGEST, 0x4000000000000000, 0x6964e718d7d7625a, 0x7ff8000000000000, 0x7ff8000000000000}},
    {"zeros of both signs", 1, 0, LARGEST, 2,
     {0x8000000000000000, 0},
     {LARGEST, 0x4000000000000000, 0, 0, 0}},
    {"a mean that a fused step would change", 1, 0, LARGEST, 3,
     {0x402764fbdc18bd9a, 0x4052c5d99f3a8ab5, 0x4053fb3a6d3ae63e},
     {LARGEST, 0x4008000000000000, 0x404bc9225aa5b06e, 0x40a6a62f55e86a08, 0x408e32e9c7e08d60}},
    {"a deviation that a fused step would change", 1, 0, LARGEST, 3,
     {0x4088500000000000, 0x4073a00000000000, 0x40427d684525f432},
     {LARGEST, 0x4008000000000000, 0x40778539ad8c3f82, 0x41111cf9a78d2eca, 0x40f6d14cdf66e90d}},
    {"a sum of squares that a fused step would change", 2, 0, 0, 2,
     {0, 0, 0x405030c89c01b368, 0x405282dfc5768313},
     {0x40c2e665f925dcd9, 0x4000000000000000, 0x404030c89c01b368, 0x404282dfc5768313,
      0x40b2e665f925dcd4, 0x4092e665f925dcd4}},
    {"deviations of each channel that a fused step would change", 2, 1, LARGEST, 3,
     {0x407aa00000000000, 0x408b480000000000, 0x4063200000000000, 0x4062800000000000,
      0x403cd5cb1b14a99c, 0x4053301e62e43c64},
     {LARGEST, 0x4008000000000000, 0x406953932120dc67, 0x4076dead32e85a5e,
      0x40f4281f31230a94, 0x4117b235e054c01c, 0x40dae02996d96370}},
};

static cftree_head one_entry(uint64_t dim, uint32_t feature, uint64_t threshold) {
    cftree_head head = {.dim = dim, .branching = 2, .leaf_cap = 1, .max_leaves = 1, .feature = feature};
    head.threshold = float_of(threshold);
    two_entries();
    return cftree_create(head, TREE).head;
}

static void check_tree(unsigned t) {
    const uint64_t dim = trees[t].dim, *expected = trees[t].expected, count = 1 + dim + (trees[t].feature ? dim : 1);
    double row[2];
    cftree_head head = one_entry(dim, trees[t].feature, trees[t].threshold);
    begin(trees[t].name);
    for (unsigned r = 0; r < trees[t].rows; r++) {
        for (unsigned i = 0; i < dim; i++) row[i] = float_of(trees[t].numbers[r * dim + i]);
        head = cftree_insert_row(head, TREE, SCRATCH, row, dim).head;
    }
    cftree_listing l = cftree_entries(head, TREE);
    same("entries", l.entries, 1);
    same_float("threshold", head.threshold, expected[0]);
    for (unsigned k = 0; k < count; k++)
        same_float(k == 0 ? "weight" : k <= dim ? "mean" : "deviation", floats[l.first + k], expected[1 + k]);
    same_answer("spread", cftree_spread(head, TREE, spread, dim), CFTREE_ACCEPTED, 0, 0);
    same_float("spread", spread[0], expected[1 + count]);
}

/* A NaN distance is less than none and more than none: the first entry of a leaf keeps the row. */
static void check_nan_routes(const char *name, double first, double second) {
    cftree_head head = settings();
    const double both[2] = {first, second}, one = 1.0;
    head.dim = 1;
    two_entries();
    head = cftree_create(head, TREE).head;
    head = cftree_insert_batch(head, TREE, SCRATCH, both, 2).head;
    begin(name);
    same("entries", head.entries, 2);
    same_answer("route", cftree_route(head, TREE, &one, 1, routes, 1), CFTREE_ACCEPTED, 0, 0);
    same("entry", routes[0], 0);
}

/* The one entry and the root set to weigh so much: whole numbers are taken up to 2^53, and there the tree is full. */
static void check_full(void) {
    const double top = 9007199254740992.0, two_rows[2] = {1.0, 1.0};
    cftree_head head = one_entry(1, CFTREE_SPHERICAL, LARGEST);
    head = cftree_insert_row(head, TREE, SCRATCH, two_rows, 1).head;
    const uint64_t first = cftree_entries(head, TREE).first;
    begin("weights up to 2^53");
    floats[0] = floats[first] = top / 2 - 0.5;
    same_answer("a weight that is not whole", cftree_validate(head, TREE), CFTREE_TREE, 7, 0);
    floats[0] = floats[first] = top + 2.0;
    same_answer("2^53 + 2", cftree_validate(head, TREE), CFTREE_TREE, 7, 0);
    floats[0] = floats[first] = top - 1.0;
    same_answer("2^53 - 1", cftree_validate(head, TREE), CFTREE_ACCEPTED, 0, 0);
    same_answer("two rows more", cftree_insert_batch(head, TREE, SCRATCH, two_rows, 2).answer, CFTREE_FULL, 0, 0);
    cftree_outcome o = cftree_insert_batch(head, TREE, SCRATCH, two_rows, 1);
    same_answer("one row more", o.answer, CFTREE_ACCEPTED, 0, 0);
    same_float("its weight", floats[first], bits_of(top));
    same_answer("and one more", cftree_insert_row(o.head, TREE, SCRATCH, two_rows, 1).answer, CFTREE_FULL, 0, 0);
}

void check_trees(void) {
    for (unsigned t = 0; t < sizeof trees / sizeof trees[0]; t++) check_tree(t);
    check_nan_routes("a route past a NaN at the front", float_of(UINT64_C(0x7ff8000000000000)), 1.0);
    check_nan_routes("a route past a NaN at the end", 1.0, float_of(UINT64_C(0x7ff8000000000000)));
    check_full();
}

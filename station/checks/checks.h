/* Checks of what a station's maker has to believe of his board: each prints `ok NAME`, or `NOT SO NAME` and what was seen. */
#ifndef CHECKS_H
#define CHECKS_H

#include "cftree.h"

/* A check begins, and the one before it is done. */
void begin(const char *name);
/* What has to hold within it; of a check that is not so, the first thing is printed, numbers in hexadecimal. */
void holds(const char *what, int is_so);
void same(const char *what, uint64_t seen, uint64_t expected);
/* By its bits, but every NaN is one. */
void same_float(const char *what, double seen, uint64_t expected);
void same_answer(const char *what, cftree_answer seen, uint32_t number, uint64_t first, uint64_t second);

uint64_t bits_of(double x);
double float_of(uint64_t bits);

/* The groups: how structs and arguments cross, lengths of 64 bits, floats through the library's calls, the routines that
 * compiled code calls for floats and 64-bit numbers, the floating-point unit. */
void check_crossing(void);
void check_arguments(void);
void check_lengths(void);
void check_trees(void);
void check_routines(void);
void check_unit(void);

/* A tree of the checks: every length that it needs is another one, and words on both sides of a buffer are watched. */
enum { DIM = 3, BRANCHING = 5, LEAF_CAP = 4, M = 6, ROWS = 2 };
enum {
    FLOATS = CFTREE_FLOATS(DIM, M),
    LINKS = CFTREE_LINKS(BRANCHING, LEAF_CAP, M),
    SCRATCH_FLOATS = CFTREE_SCRATCH_FLOATS(DIM, M),
    SCRATCH_LINKS = CFTREE_SCRATCH_LINKS(M)
};
extern double *const floats, *const scratch_floats, *const rows, *const spread;
extern uint32_t *const links, *const scratch_links, *const routes;

#define TREE floats, FLOATS, links, LINKS
#define SCRATCH scratch_floats, SCRATCH_FLOATS, scratch_links, SCRATCH_LINKS

/* A call that changes the tree. */
typedef cftree_outcome changing(cftree_head head, double *floats, uint64_t floats_len, uint32_t *links, uint64_t links_len,
                                double *scratch_floats, uint64_t scratch_floats_len, uint32_t *scratch_links,
                                uint64_t scratch_links_len, const double *rows, uint64_t rows_len);

cftree_head settings(void);
/* A tree of two entries, the rows 1 2 3 and 40 50 60; scratch and outputs are filled with words of no meaning. */
cftree_head two_entries(void);
/* Whether no word beside a buffer has changed. */
int beside_holds(void);

#endif

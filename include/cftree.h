/* A tree of at most M summaries of rows: how many rows each stands for, their mean and their squared deviation.
 *
 * Link with libcftree.a (`bin/library` proves it and writes it to target/lib). It calls memset and memcpy, takes no memory
 * of its own and keeps no state: all of a tree is in a head and two buffers that the caller lends.
 *
 * *** KEEP THE HEAD THAT A CHANGING CALL GIVES BACK, and lend that one next. *** An older head over the same buffers can
 * pass the tree check, and the tree then goes on with an older threshold: at M 1 and leaf_cap 1 the rows 0, 4, 5 leave it
 * just above 16, and just above 9 if the head that comes back with row 4 is dropped, with no refusal.
 *
 * Nothing is required of what is in the head and in the buffers: every call does its work, or gives one of seven refusals
 * and writes nothing. What is required, and cannot be checked:
 *   - a pointer is aligned, and so many words are behind it as its length says, all of them set to some number; zeros will
 *     do. With length 0 it may be NULL: nothing is read or written through it;
 *   - no two buffers of one call overlap;
 *   - the floating-point environment is the default one: it rounds to nearest and does not flush subnormals to zero. (In a
 *     program that is linked with -ffast-math the start-up code may flush them, and the answers are then others.)
 *   - no two calls on one tree run at the same time, unless both only read it.
 *
 * A NaN that a call works out may have any sign and payload, in the floats and in a spread: ask isnan, not the bits.
 *
 * The machine is x86-64, Linux's calling convention; the archive runs nowhere else. Below its entry no call takes more than
 * 5,032 bytes of stack there (docs/SPEED.md has each call's). A 32-bit controller would need a compiler of the kit for it,
 * 64-bit counts that are narrowed to its size_t, and that depth measured anew.
 */
#ifndef CFTREE_H
#define CFTREE_H

#include <stddef.h>
#include <stdint.h>

#ifdef __cplusplus
extern "C" {
#endif

/* Major * 10000 + minor * 100 + patch. An archive that goes with this header answers the same, so ask it at start-up:
 *   if (cftree_version() != CFTREE_VERSION) ..the header and the archive are not of one version.. */
#define CFTREE_VERSION 100
uint32_t cftree_version(void);

/* A compiler that can warn does so where the answer of a call is dropped. */
#if (defined(__cplusplus) && __cplusplus >= 201703L) || (defined(__STDC_VERSION__) && __STDC_VERSION__ >= 202311L)
#define CFTREE_KEEP [[nodiscard]]
#elif defined(__GNUC__)
#define CFTREE_KEEP __attribute__((warn_unused_result))
#else
#define CFTREE_KEEP
#endif

/* Limits of the settings. */
#define CFTREE_MOST_DIM 8          /* dim 1 to 8 */
#define CFTREE_LEAST_BRANCHING 2   /* branching 2 to 16 */
#define CFTREE_MOST_BRANCHING 16
#define CFTREE_MOST_LEAF_CAP 16    /* leaf_cap 1 to 16 */
#define CFTREE_MOST_LEAVES 256     /* max_leaves 1 to 256 */
#define CFTREE_MOST_ROWS 9007199254740992ull /* 2^53 rows counted in a tree */

/* feature: one squared deviation over all channels, or one for each */
enum { CFTREE_SPHERICAL = 0, CFTREE_DIAGONAL = 1 };

/* dist and abs; the Euclidean distance is squared, and none takes a root */
enum {
    CFTREE_CENTROID_EUCLIDEAN = 0,
    CFTREE_CENTROID_MANHATTAN = 1,
    CFTREE_AVERAGE_INTERCLUSTER = 2,
    CFTREE_AVERAGE_INTRACLUSTER = 3,
    CFTREE_VARIANCE_INCREASE = 4,
    CFTREE_RADIUS = 5
};

/* The settings, chosen by the caller, and the counters, which creation sets and changing calls keep. */
typedef struct {
    uint64_t dim;        /* numbers in a row */
    uint64_t branching;  /* most children of a node */
    uint64_t leaf_cap;   /* most entries of a leaf */
    uint64_t max_leaves; /* M, most entries of the tree */
    uint64_t nodes;      /* counters: nodes, entries, the root's number, */
    uint64_t entries;
    uint64_t root;
    uint64_t rebuilds;   /* rebuilds so far (stops at its top value), */
    uint64_t merged;     /* entries merged away since the tree was last built anew */
    double threshold;    /* absorption threshold, finite and not below 0; rebuilds let it grow */
    uint32_t feature;    /* CFTREE_SPHERICAL or CFTREE_DIAGONAL */
    uint32_t dist;       /* where rows go and how nodes split */
    uint32_t abs;        /* what is held against the threshold */
} cftree_head;

/* Answers, in order of checking. A refused call gives the head back and leaves every buffer as lent: the functions that work
 * out a refusal have the buffers to read only, so not a bit is written. (What is proved is that every number stays, and to
 * the proof all NaNs are one number.) */
enum {
    CFTREE_ACCEPTED = 0,
    CFTREE_SETTINGS = 1, /* a size, choice or the threshold in the head is outside its limits */
    CFTREE_ROOM = 2,     /* a lent buffer is shorter than needed */
    CFTREE_TREE = 3,     /* the tree check fails; first: the lowest condition that fails, 1 to 8 */
    CFTREE_SHAPE = 4,    /* first: dim; second: one row's length, not dim, or what a batch leaves over of whole rows */
    CFTREE_EMPTY = 5,    /* routing of at least one row in a tree with no entries */
    CFTREE_FULL = 6,     /* insert: total weight plus rows exceeds 2^53; refit with entries: its rows exceed 2^53 */
    CFTREE_OUTPUT = 7    /* routing or spread: the output is shorter than the numbers to write */
};

typedef struct {
    uint64_t first;  /* values of a refusal, 0 where it has none */
    uint64_t second;
    uint32_t number; /* 0 accepted, or 1 to 7 */
} cftree_answer;

/* The name of an answer's number, for messages. */
static inline const char *cftree_refusal_name(uint32_t number) {
    switch (number) {
    case CFTREE_ACCEPTED: return "ACCEPTED";
    case CFTREE_SETTINGS: return "SETTINGS";
    case CFTREE_ROOM: return "ROOM";
    case CFTREE_TREE: return "TREE";
    case CFTREE_SHAPE: return "SHAPE";
    case CFTREE_EMPTY: return "EMPTY";
    case CFTREE_FULL: return "FULL";
    case CFTREE_OUTPUT: return "OUTPUT";
    default: return "no answer of this version";
    }
}

/* What a changing call gives back: the head to keep, and the answer. */
typedef struct {
    cftree_head head;
    cftree_answer answer;
} cftree_outcome;

/* Where the entries stand: entry i's weight is floats[first + i * width]; `means` means follow, then `deviations`
 * deviations (1 if Spherical, dim if Diagonal). All 0 if refused. */
typedef struct {
    cftree_answer answer;
    uint64_t entries;
    uint64_t first;
    uint64_t width;
    uint64_t means;
    uint64_t deviations;
} cftree_listing;

/* Structs cross to the archive by value: a compiler that lays them out otherwise stops here. */
typedef char cftree_head_has_96_bytes[sizeof(cftree_head) == 96 ? 1 : -1];
typedef char cftree_answer_has_24_bytes[sizeof(cftree_answer) == 24 ? 1 : -1];
typedef char cftree_outcome_has_120_bytes[sizeof(cftree_outcome) == 120 ? 1 : -1];
typedef char cftree_listing_has_64_bytes[sizeof(cftree_listing) == 64 ? 1 : -1];

/* Words needed of each buffer, for static arrays, of constant settings within their limits. */
#define CFTREE_NODES(m) (((m) + 1) * ((m) + 2) / 2)
#define CFTREE_FLOATS(dim, m) ((CFTREE_NODES(m) + (m) + 1) * (1 + 2 * (dim)))
#define CFTREE_LINKS(branching, leaf_cap, m) (CFTREE_NODES(m) * (3 + ((branching) > (leaf_cap) ? (branching) : (leaf_cap))))
#define CFTREE_SCRATCH_FLOATS(dim, m) (((m) + 1) * (1 + 2 * (dim)))
#define CFTREE_SCRATCH_LINKS(m) (3 * ((m) + 1))

/* The same of any head; 0 if it is outside its limits. A longer buffer serves too, and what lies past the needed words is
 * never touched. */
uint64_t cftree_floats_needed(cftree_head head);
uint64_t cftree_links_needed(cftree_head head);
uint64_t cftree_scratch_floats_needed(cftree_head head);
uint64_t cftree_scratch_links_needed(cftree_head head);

/* An empty tree with the head's settings and threshold; the counters in the head are not read. Refusals 1 and 2. */
CFTREE_KEEP
cftree_outcome cftree_create(cftree_head head, double *floats, size_t floats_len, uint32_t *links, size_t links_len);

/* One row into the tree. Refusals 1, 2, 3, 4, 6. Any numbers are taken, NaN and infinity too.
 * After this call and the next two scratch is zero, and so are the needed words that hold nothing of the tree. */
CFTREE_KEEP
cftree_outcome cftree_insert_row(cftree_head head, double *floats, size_t floats_len, uint32_t *links, size_t links_len,
                                 double *scratch_floats, size_t scratch_floats_len, uint32_t *scratch_links,
                                 size_t scratch_links_len, const double *row, size_t row_len);

/* Rows one after the other: all of them or none. Refusals 1, 2, 3, 4, 6. The tree is checked once. */
CFTREE_KEEP
cftree_outcome cftree_insert_batch(cftree_head head, double *floats, size_t floats_len, uint32_t *links, size_t links_len,
                                   double *scratch_floats, size_t scratch_floats_len, uint32_t *scratch_links,
                                   size_t scratch_links_len, const double *rows, size_t rows_len);

/* The entries made anew from the rows that are routed to them; unused ones are dropped. Refusals 1, 2, 3, 4, 6. */
CFTREE_KEEP
cftree_outcome cftree_refit(cftree_head head, double *floats, size_t floats_len, uint32_t *links, size_t links_len,
                            double *scratch_floats, size_t scratch_floats_len, uint32_t *scratch_links,
                            size_t scratch_links_len, const double *rows, size_t rows_len);

/* The tree check. Refusals 1, 2, 3. */
CFTREE_KEEP
cftree_answer cftree_validate(cftree_head head, const double *floats, size_t floats_len, const uint32_t *links,
                              size_t links_len);

/* Where the entries stand. Refusals 1, 2, 3. */
CFTREE_KEEP
cftree_listing cftree_entries(cftree_head head, const double *floats, size_t floats_len, const uint32_t *links,
                              size_t links_len);

/* One entry number a row to the front of the output. Refusals 1, 2, 3, 4, 5, 7. */
CFTREE_KEEP
cftree_answer cftree_route(cftree_head head, const double *floats, size_t floats_len, const uint32_t *links,
                           size_t links_len, const double *rows, size_t rows_len, uint32_t *out, size_t out_len);

/* Squared deviation over weight (Spherical: over dim too), dim numbers an entry, to the front of the output.
 * Refusals 1, 2, 3, 7. */
CFTREE_KEEP
cftree_answer cftree_spread(cftree_head head, const double *floats, size_t floats_len, const uint32_t *links,
                            size_t links_len, double *out, size_t out_len);

/* The tree check's conditions:
 *   1  node count 1 to N, entry count 0 to M
 *   2  the root exists and has no parent
 *   3  no list is over its cap; every child number exists
 *   4  every node is reached from the root once, by the parent it names; every entry is in one leaf list, once
 *   5  no list is empty, but for a lone root leaf with no entries
 *   6  all leaves are equally deep, and each level has more nodes than the level above it
 *   7  entry weights are whole, 1 to 2^53; each node's weight is the sum of those beneath it; the total is at most 2^53
 *   8  merged is below M */

#ifdef __cplusplus
}
#endif

#endif

/* What crosses between host.c and board.c: a call and its slices one way, its result and the same slices back. Both sides
 * are little-endian and lay these structs out alike; a compiler that does otherwise stops here. */
#ifndef RELAY_FRAME_H
#define RELAY_FRAME_H

#include "cftree.h"

/* The first word of a call and of an answer; the top byte counts the versions of this file, so that an older program at the
 * other end is seen. */
#define RELAY_CALLS 0x01637443u
#define RELAY_ANSWERS 0x01617443u

/* The functions of cftree.h. */
enum {
    RELAY_VERSION,
    RELAY_FLOATS_NEEDED,
    RELAY_LINKS_NEEDED,
    RELAY_SCRATCH_FLOATS_NEEDED,
    RELAY_SCRATCH_LINKS_NEEDED,
    RELAY_CREATE,
    RELAY_INSERT_ROW,
    RELAY_INSERT_BATCH,
    RELAY_REFIT,
    RELAY_VALIDATE,
    RELAY_ENTRIES,
    RELAY_ROUTE,
    RELAY_SPREAD,
    RELAY_FUNCTIONS
};

enum { RELAY_SLICES = 5 }; /* the most that one function is lent */

/* A slice as a function takes it: its name, the bytes of a word (0: no such slice), and whether it may be written. */
typedef struct {
    const char *name;
    unsigned bytes;
    int written;
} relay_slice;

typedef struct {
    const char *name;
    relay_slice slices[RELAY_SLICES];
} relay_function;

#define RELAY_TREE(written) {"floats", 8, written}, {"links", 4, written}
#define RELAY_CHANGE {RELAY_TREE(1), {"scratch_floats", 8, 1}, {"scratch_links", 4, 1}, {"rows", 8, 0}}
#define RELAY_NONE {{"", 0, 0}}

static const relay_function relay_functions[RELAY_FUNCTIONS] = {
    {"cftree_version", RELAY_NONE},
    {"cftree_floats_needed", RELAY_NONE},
    {"cftree_links_needed", RELAY_NONE},
    {"cftree_scratch_floats_needed", RELAY_NONE},
    {"cftree_scratch_links_needed", RELAY_NONE},
    {"cftree_create", {RELAY_TREE(1)}},
    {"cftree_insert_row", RELAY_CHANGE},
    {"cftree_insert_batch", RELAY_CHANGE},
    {"cftree_refit", RELAY_CHANGE},
    {"cftree_validate", {RELAY_TREE(0)}},
    {"cftree_entries", {RELAY_TREE(0)}},
    {"cftree_route", {RELAY_TREE(0), {"rows", 8, 0}, {"out", 4, 1}}},
    {"cftree_spread", {RELAY_TREE(0), {"out", 8, 1}}},
};

/* To the board; the words of each slice follow, in order. */
typedef struct {
    uint32_t magic;
    uint32_t function;
    cftree_head head;
    uint64_t words[RELAY_SLICES];
} relay_call;

enum {
    RELAY_DONE,
    RELAY_NO_CALL, /* the frame is no call of this version */
    RELAY_NO_ROOM, /* detail: the bytes of memory that the board has for slices */
    RELAY_TOUCHED  /* a word beside a slice was changed; detail: the slice before or after it */
};

/* The result, by its function. */
typedef union {
    uint64_t number;
    cftree_outcome outcome;
    cftree_answer answer;
    cftree_listing listing;
} relay_result;

/* From the board; if it is RELAY_DONE, the words of each slice follow. Otherwise the board ends. */
typedef struct {
    uint32_t magic;
    uint32_t status;
    uint64_t detail;
    relay_result result;
} relay_answer;

typedef char relay_is_little_endian[__BYTE_ORDER__ == __ORDER_LITTLE_ENDIAN__ ? 1 : -1];
typedef char relay_call_has_144_bytes[sizeof(relay_call) == 144 ? 1 : -1];
typedef char relay_answer_has_136_bytes[sizeof(relay_answer) == 136 ? 1 : -1];
typedef char relay_double_has_8_bytes[sizeof(double) == 8 ? 1 : -1];

#endif

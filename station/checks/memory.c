/* The buffers of the checks, with watched words on both sides, and a small tree in them. */
#include "checks.h"

enum { BESIDE = 4, MEANINGLESS = 0x5eed5eed };
#define ROOM(count) [BESIDE + (count) + BESIDE]

static double floats_room ROOM(FLOATS), scratch_floats_room ROOM(SCRATCH_FLOATS), rows_room ROOM(ROWS * DIM),
    spread_room ROOM(ROWS * DIM);
static uint32_t links_room ROOM(LINKS), scratch_links_room ROOM(SCRATCH_LINKS), routes_room ROOM(ROWS);

double *const floats = floats_room + BESIDE, *const scratch_floats = scratch_floats_room + BESIDE,
              *const rows = rows_room + BESIDE, *const spread = spread_room + BESIDE;
uint32_t *const links = links_room + BESIDE, *const scratch_links = scratch_links_room + BESIDE,
                *const routes = routes_room + BESIDE;

static const struct {
    double *words;
    unsigned count;
} floats_lent[] = {{floats_room, FLOATS},
                   {scratch_floats_room, SCRATCH_FLOATS},
                   {rows_room, ROWS * DIM},
                   {spread_room, ROWS * DIM}};
static const struct {
    uint32_t *words;
    unsigned count;
} links_lent[] = {{links_room, LINKS}, {scratch_links_room, SCRATCH_LINKS}, {routes_room, ROWS}};

#define COUNT(a) (sizeof(a) / sizeof((a)[0]))

static void fill(void) {
    for (unsigned k = 0; k < COUNT(floats_lent); k++)
        for (unsigned i = 0; i < BESIDE + floats_lent[k].count + BESIDE; i++) floats_lent[k].words[i] = MEANINGLESS;
    for (unsigned k = 0; k < COUNT(links_lent); k++)
        for (unsigned i = 0; i < BESIDE + links_lent[k].count + BESIDE; i++) links_lent[k].words[i] = MEANINGLESS;
}

int beside_holds(void) {
    int holds = 1;
    for (unsigned i = 0; i < BESIDE; i++) {
        for (unsigned k = 0; k < COUNT(floats_lent); k++)
            holds = holds && floats_lent[k].words[i] == MEANINGLESS &&
                    floats_lent[k].words[BESIDE + floats_lent[k].count + i] == MEANINGLESS;
        for (unsigned k = 0; k < COUNT(links_lent); k++)
            holds = holds && links_lent[k].words[i] == MEANINGLESS &&
                    links_lent[k].words[BESIDE + links_lent[k].count + i] == MEANINGLESS;
    }
    return holds;
}

cftree_head settings(void) {
    cftree_head head = {.dim = DIM, .branching = BRANCHING, .leaf_cap = LEAF_CAP, .max_leaves = M, .threshold = 0.0};
    return head;
}

cftree_head two_entries(void) {
    fill();
    for (unsigned i = 0; i < DIM; i++) rows[i] = 1.0 + i, rows[DIM + i] = 40.0 + 10.0 * i;
    cftree_head head = cftree_create(settings(), TREE).head;
    head = cftree_insert_batch(head, TREE, SCRATCH, rows, ROWS * DIM).head;
    for (unsigned i = 0; i < SCRATCH_FLOATS; i++) scratch_floats[i] = MEANINGLESS;
    for (unsigned i = 0; i < SCRATCH_LINKS; i++) scratch_links[i] = MEANINGLESS;
    return head;
}

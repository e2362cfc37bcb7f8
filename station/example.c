/* What a station does: a row every tick into a tree of at most 24 summaries, and at the end of the day a listing over the
 * serial line. No heap and no file: the tree and its scratch are four arrays.
 *   station/run runs it on each emulated board. */
#include "cftree.h"
#include "sensor.h"
#include "serial.h"

enum { DIM = 4, BRANCHING = 8, LEAF_CAP = 8, M = 24 };

static double floats[CFTREE_FLOATS(DIM, M)], scratch_floats[CFTREE_SCRATCH_FLOATS(DIM, M)];
static uint32_t links[CFTREE_LINKS(BRANCHING, LEAF_CAP, M)], scratch_links[CFTREE_SCRATCH_LINKS(M)];

#define COUNT(a) (sizeof(a) / sizeof((a)[0]))
#define TREE floats, COUNT(floats), links, COUNT(links)
#define SCRATCH scratch_floats, COUNT(scratch_floats), scratch_links, COUNT(scratch_links)

/* A refused call has changed nothing, so the station goes on with the next row; but it says so. */
static int refused(cftree_answer answer) {
    if (answer.number == CFTREE_ACCEPTED) return 0;
    serial_put("refused\t");
    serial_put(cftree_refusal_name(answer.number));
    serial_put("\t");
    serial_number(answer.first);
    serial_put("\t");
    serial_number(answer.second);
    serial_put("\n");
    return 1;
}

static void put_floats(const double *xs, uint64_t count) {
    for (uint64_t i = 0; i < count; i++) {
        serial_put("\t");
        serial_hex(xs[i]);
    }
}

/* Line 1: entry count, threshold, rebuilds, rows; then a line an entry: number, rows, means, deviations. */
static int list(cftree_head head) {
    cftree_listing listing = cftree_entries(head, TREE);
    double rows = 0.0;
    if (refused(listing.answer)) return 1;
    for (uint64_t i = 0; i < listing.entries; i++) rows += floats[listing.first + i * listing.width];
    serial_number(listing.entries);
    put_floats(&head.threshold, 1);
    serial_put("\t");
    serial_number(head.rebuilds);
    serial_put("\t");
    serial_number((uint64_t)rows);
    serial_put("\n");
    for (uint64_t i = 0; i < listing.entries; i++) {
        const double *entry = &floats[listing.first + i * listing.width];
        serial_number(i);
        serial_put("\t");
        serial_number((uint64_t)entry[0]);
        put_floats(entry + 1, listing.means + listing.deviations);
        serial_put("\n");
    }
    return 0;
}

int main(void) {
    cftree_head head = {.dim = DIM, .branching = BRANCHING, .leaf_cap = LEAF_CAP, .max_leaves = M, .threshold = 0.0,
                        .feature = CFTREE_SPHERICAL, .dist = CFTREE_CENTROID_EUCLIDEAN, .abs = CFTREE_CENTROID_EUCLIDEAN};
    double row[DIM];
    serial_start();
    sensor_start();
    if (cftree_version() != CFTREE_VERSION) {
        serial_put("the header and the archive are not of one version\n");
        return 1;
    }
    cftree_outcome tree = cftree_create(head, TREE);
    if (refused(tree.answer)) return 1;
    while (sensor_row(row)) {
        tree = cftree_insert_row(tree.head, TREE, SCRATCH, row, DIM);
        refused(tree.answer);
    }
    return list(tree.head);
}

/* Reads rows from standard input into a station's tree, lists its entries and prints their spread.
 *   bin/library && cc -Iinclude include/example.c -Ltarget/lib -lcftree -o target/example
 *   samples/day --plain | target/example
 * A row is a line of numbers parted by blanks or tabs. There is no heap: the tree and its scratch are four arrays.
 */
#include "cftree.h"
#include <inttypes.h>
#include <stdio.h>
#include <stdlib.h>
#include <string.h>

enum { DIM = 4, BRANCHING = 8, LEAF_CAP = 8, M = 24, FIELDS = 64, LINE = 1024 };

static double floats[CFTREE_FLOATS(DIM, M)], scratch_floats[CFTREE_SCRATCH_FLOATS(DIM, M)], spread[M * DIM];
static uint32_t links[CFTREE_LINKS(BRANCHING, LEAF_CAP, M)], scratch_links[CFTREE_SCRATCH_LINKS(M)];

#define COUNT(a) (sizeof(a) / sizeof((a)[0]))
#define TREE floats, COUNT(floats), links, COUNT(links)
#define SCRATCH scratch_floats, COUNT(scratch_floats), scratch_links, COUNT(scratch_links)

/* The numbers of a line, FIELDS at most; -1 where a word is none or there are more. */
static int row_of(char *line, double *row) {
    int count = 0;
    for (char *word = strtok(line, " \t\r\n"); word; word = strtok(NULL, " \t\r\n")) {
        char *end;
        if (count == FIELDS) return -1;
        row[count++] = strtod(word, &end);
        if (*end) return -1;
    }
    return count;
}

static int refused(unsigned long line, cftree_answer a) {
    const char *name = cftree_refusal_name(a.number);
    fprintf(stderr, "line %lu: refused, %s (%" PRIu64 ", %" PRIu64 ")\n", line, name, a.first, a.second);
    return 1;
}

static void print_all(const char *before, const double *xs, size_t count) {
    fputs(before, stdout);
    for (size_t i = 0; i < count; i++) printf(" %.4f", xs[i]);
}

/* Each entry: its number, how many rows it stands for, their mean, and the spread of each channel. */
static int print_tree(cftree_head head) {
    cftree_listing list = cftree_entries(head, TREE);
    cftree_answer wrote = cftree_spread(head, TREE, spread, COUNT(spread));
    if (list.answer.number != CFTREE_ACCEPTED) return refused(0, list.answer);
    if (wrote.number != CFTREE_ACCEPTED) return refused(0, wrote);
    printf("%" PRIu64 " entries, threshold %.4f\n", list.entries, head.threshold);
    for (uint64_t i = 0; i < list.entries; i++) {
        const double *entry = &floats[list.first + i * list.width];
        printf("%" PRIu64 ": %.0f rows", i, entry[0]);
        print_all(", mean", entry + 1, list.means);
        print_all(", spread", spread + i * DIM, DIM);
        puts("");
    }
    return 0;
}

int main(void) {
    cftree_head head = {.dim = DIM, .branching = BRANCHING, .leaf_cap = LEAF_CAP, .max_leaves = M, .threshold = 0.0,
                        .feature = CFTREE_DIAGONAL, .dist = CFTREE_CENTROID_EUCLIDEAN, .abs = CFTREE_CENTROID_EUCLIDEAN};
    char line[LINE];
    double row[FIELDS];
    if (cftree_version() != CFTREE_VERSION) {
        fprintf(stderr, "the header is of version %d, the archive of %" PRIu32 "\n", CFTREE_VERSION, cftree_version());
        return 1;
    }
    cftree_outcome tree = cftree_create(head, TREE);
    if (tree.answer.number != CFTREE_ACCEPTED) return refused(0, tree.answer);
    for (unsigned long at = 1; fgets(line, sizeof line, stdin); at++) {
        int count = strlen(line) + 1 < sizeof line ? row_of(line, row) : -1;
        if (count < 0) {
            fprintf(stderr, "line %lu: no row of numbers\n", at);
            return 1;
        }
        tree = cftree_insert_row(tree.head, TREE, SCRATCH, row, (size_t)count);
        if (tree.answer.number != CFTREE_ACCEPTED) return refused(at, tree.answer);
    }
    return print_tree(tree.head);
}

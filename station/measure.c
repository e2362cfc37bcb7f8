/* What a row costs on a board: instructions, by a timer of the emulator that counts them, and stack, by painting it.
 * Prints a line a kind of call: its name, how many, instructions on average and at most, bytes of stack at most. */
#include "cftree.h"
#include "day.h"
#include "serial.h"

enum { DIM = 4, BRANCHING = 8, LEAF_CAP = 8, M = 24, DEEP = 16384, PAINT = 0xa5 };
enum { ABSORBED, BEGAN, SPLIT, REBUILT, REFITTED, KINDS };

static double floats[CFTREE_FLOATS(DIM, M)], scratch_floats[CFTREE_SCRATCH_FLOATS(DIM, M)];
static uint32_t links[CFTREE_LINKS(BRANCHING, LEAF_CAP, M)], scratch_links[CFTREE_SCRATCH_LINKS(M)];
static cftree_outcome tree;

#define COUNT(a) (sizeof(a) / sizeof((a)[0]))
#define TREE floats, COUNT(floats), links, COUNT(links)
#define SCRATCH scratch_floats, COUNT(scratch_floats), scratch_links, COUNT(scratch_links)

static const char *const names[KINDS] = {"absorbed", "began an entry", "split", "rebuilt", "refit of a day"};
static struct { uint32_t count, most, stack; uint64_t total; } seen[KINDS];

/* The first timer of the MPS2 boards: it runs down at 25 MHz. station/run lets the emulator take 64 ns an instruction. */
static volatile uint32_t *const timer = (volatile uint32_t *)0x40000000;
enum { CONTROL, VALUE, RELOAD };
#define INSTRUCTIONS(ticks) ((uint32_t)((uint64_t)(ticks) * 40 / 64))

typedef cftree_outcome changing(cftree_head, double *, uint64_t, uint32_t *, uint64_t, double *, uint64_t, uint32_t *,
                                uint64_t, const double *, uint64_t);

__attribute__((noinline)) static void paint(volatile unsigned char *top) {
    volatile unsigned char *own;
    __asm volatile("mov %0, sp" : "=r"(own));
    for (volatile unsigned char *at = top - DEEP; at < own; at++) *at = PAINT;
}

__attribute__((noinline)) static uint32_t painted(volatile unsigned char *top) {
    volatile unsigned char *at = top - DEEP;
    while (at < top && *at == PAINT) at++;
    return (uint32_t)(top - at);
}

/* A call over painted stack; `top` is the stack pointer with which it is entered. */
__attribute__((noinline)) static void called(changing *call, const double *rows, uint64_t len, uint32_t *ticks,
                                             uint32_t *stack) {
    volatile unsigned char *top;
    __asm volatile("mov %0, sp" : "=r"(top));
    paint(top);
    uint32_t before = timer[VALUE];
    tree = call(tree.head, TREE, SCRATCH, rows, len);
    *ticks = before - timer[VALUE];
    *stack = painted(top);
}

static void noted(unsigned kind, uint32_t ticks, uint32_t stack) {
    uint32_t count = INSTRUCTIONS(ticks);
    seen[kind].count++;
    seen[kind].total += count;
    if (count > seen[kind].most) seen[kind].most = count;
    if (stack > seen[kind].stack) seen[kind].stack = stack;
}

/* What a row did, by the counters that it left. */
static unsigned kind_of(cftree_head before, cftree_head after) {
    if (after.rebuilds != before.rebuilds) return REBUILT;
    if (after.nodes != before.nodes) return SPLIT;
    return after.entries != before.entries ? BEGAN : ABSORBED;
}

static void print(unsigned kind) {
    serial_put(names[kind]);
    serial_put("\t");
    serial_number(seen[kind].count);
    serial_put("\t");
    serial_number(seen[kind].count ? seen[kind].total / seen[kind].count : 0);
    serial_put("\t");
    serial_number(seen[kind].most);
    serial_put("\t");
    serial_number(seen[kind].stack);
    serial_put("\n");
}

int main(void) {
    cftree_head head = {.dim = DIM, .branching = BRANCHING, .leaf_cap = LEAF_CAP, .max_leaves = M, .threshold = 0.0,
                        .feature = CFTREE_SPHERICAL, .dist = CFTREE_CENTROID_EUCLIDEAN, .abs = CFTREE_CENTROID_EUCLIDEAN};
    uint32_t ticks, stack;
    serial_start();
    timer[RELOAD] = timer[VALUE] = UINT32_MAX;
    timer[CONTROL] = 1;
    tree = cftree_create(head, TREE);
    for (unsigned i = 0; i < DAY_ROWS && tree.answer.number == CFTREE_ACCEPTED; i++) {
        cftree_head before = tree.head;
        called(cftree_insert_row, day[i], DIM, &ticks, &stack);
        noted(kind_of(before, tree.head), ticks, stack);
    }
    called(cftree_refit, day[0], DAY_ROWS * DIM, &ticks, &stack);
    noted(REFITTED, ticks, stack);
    for (unsigned kind = 0; kind < KINDS; kind++) print(kind);
    return tree.answer.number != CFTREE_ACCEPTED;
}

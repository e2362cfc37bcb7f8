/* Runs calls of the library for a host: reads a call, lays its slices out between guard words, calls the function in the
 * archive that is linked, and sends the result back with every word of every slice. host.c is the other end. */
#include "frame.h"
#include "port.h"

enum { GUARD = 64 }; /* bytes at least, on each side of a slice */

/* Where each slice stands in the memory: guard k lies before slice k, and the last one behind the last slice. */
typedef struct {
    size_t count;
    size_t starts[RELAY_SLICES];
    size_t bytes[RELAY_SLICES];
} places;

static size_t slice_end(const places *at, size_t k) { return at->starts[k] + at->bytes[k]; }

static size_t guard_start(const places *at, size_t k) { return k ? slice_end(at, k - 1) : 0; }

/* The first place for a slice behind a guard. */
static size_t past_guard(size_t start) { return (start + GUARD + 7) & ~(size_t)7; }

static uint32_t *word(size_t at) { return (uint32_t *)(void *)(relay_memory() + at); }

/* No two guard words are alike, and none is a small number or zero. */
static uint32_t guard_word(size_t at) { return 0xa5c30000u ^ (uint32_t)at; }

/* Finds a place for each slice; 0 if the memory is too small for them. */
static int placed(const relay_call *call, places *at) {
    const relay_slice *slices = relay_functions[call->function].slices;
    size_t end = past_guard(0);
    for (size_t k = 0; k < RELAY_SLICES && slices[k].bytes; k++) {
        size_t room = relay_memory_bytes() - end;
        if (room < 2 * GUARD || call->words[k] > (room - 2 * GUARD) / slices[k].bytes) return 0;
        at->starts[k] = end;
        at->bytes[k] = (size_t)call->words[k] * slices[k].bytes;
        at->count = k + 1;
        end = past_guard(slice_end(at, k));
    }
    return 1;
}

static void write_guard(size_t start) {
    for (size_t i = start; i < past_guard(start); i += 4) *word(i) = guard_word(i);
}

static int guard_holds(size_t start) {
    for (size_t i = start; i < past_guard(start); i += 4)
        if (*word(i) != guard_word(i)) return 0;
    return 1;
}

/* The slices in their places, guards around them; 0 where the host has gone. */
static int laid_out(const places *at) {
    for (size_t k = 0; k <= at->count; k++) {
        write_guard(guard_start(at, k));
        if (k < at->count && !relay_receive(relay_memory() + at->starts[k], at->bytes[k])) return 0;
    }
    return 1;
}

/* The first guard that has changed, or count + 1 where all hold. */
static size_t first_touched(const places *at) {
    size_t k = 0;
    while (k <= at->count && guard_holds(guard_start(at, k))) k++;
    return k;
}

static double *floats_at(const places *at, size_t k) { return (double *)(void *)(relay_memory() + at->starts[k]); }

static uint32_t *links_at(const places *at, size_t k) { return word(at->starts[k]); }

static cftree_outcome changed(const relay_call *call, const places *at) {
    const cftree_head h = call->head;
    const uint64_t *n = call->words;
    double *floats = floats_at(at, 0), *scratch_floats = floats_at(at, 2), *rows = floats_at(at, 4);
    uint32_t *links = links_at(at, 1), *scratch_links = links_at(at, 3);
    switch (call->function) {
    case RELAY_INSERT_ROW:
        return cftree_insert_row(h, floats, n[0], links, n[1], scratch_floats, n[2], scratch_links, n[3], rows, n[4]);
    case RELAY_INSERT_BATCH:
        return cftree_insert_batch(h, floats, n[0], links, n[1], scratch_floats, n[2], scratch_links, n[3], rows, n[4]);
    default:
        return cftree_refit(h, floats, n[0], links, n[1], scratch_floats, n[2], scratch_links, n[3], rows, n[4]);
    }
}

static relay_result called(const relay_call *call, const places *at) {
    relay_result r = {0};
    const cftree_head h = call->head;
    const uint64_t *n = call->words;
    double *floats = floats_at(at, 0), *third = floats_at(at, 2);
    uint32_t *links = links_at(at, 1), *routes = links_at(at, 3);
    switch (call->function) {
    case RELAY_VERSION: r.number = cftree_version(); break;
    case RELAY_FLOATS_NEEDED: r.number = cftree_floats_needed(h); break;
    case RELAY_LINKS_NEEDED: r.number = cftree_links_needed(h); break;
    case RELAY_SCRATCH_FLOATS_NEEDED: r.number = cftree_scratch_floats_needed(h); break;
    case RELAY_SCRATCH_LINKS_NEEDED: r.number = cftree_scratch_links_needed(h); break;
    case RELAY_CREATE: r.outcome = cftree_create(h, floats, n[0], links, n[1]); break;
    case RELAY_VALIDATE: r.answer = cftree_validate(h, floats, n[0], links, n[1]); break;
    case RELAY_ENTRIES: r.listing = cftree_entries(h, floats, n[0], links, n[1]); break;
    case RELAY_ROUTE: r.answer = cftree_route(h, floats, n[0], links, n[1], third, n[2], routes, n[3]); break;
    case RELAY_SPREAD: r.answer = cftree_spread(h, floats, n[0], links, n[1], third, n[2]); break;
    default: r.outcome = changed(call, at);
    }
    return r;
}

static void refuse(uint32_t status, uint64_t detail) {
    relay_answer answer = {.magic = RELAY_ANSWERS, .status = status, .detail = detail};
    relay_send(&answer, sizeof answer);
    relay_end(1);
}

/* One call from its slices to its answer. */
static void serve(const relay_call *call) {
    places at = {0};
    relay_answer answer = {.magic = RELAY_ANSWERS, .status = RELAY_DONE};
    if (call->magic != RELAY_CALLS || call->function >= RELAY_FUNCTIONS) refuse(RELAY_NO_CALL, 0);
    if (!placed(call, &at)) refuse(RELAY_NO_ROOM, relay_memory_bytes());
    if (!laid_out(&at)) relay_end(1);
    answer.result = called(call, &at);
    if (first_touched(&at) <= at.count) refuse(RELAY_TOUCHED, first_touched(&at));
    if (!relay_send(&answer, sizeof answer)) relay_end(1);
    for (size_t k = 0; k < at.count; k++)
        if (!relay_send(relay_memory() + at.starts[k], at.bytes[k])) relay_end(1);
}

int main(void) {
    relay_call call;
    while (relay_receive(&call, sizeof call)) serve(&call);
    relay_end(0);
    return 0;
}

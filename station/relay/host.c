/* Stands in for libcftree.a: the functions of cftree.h, each call sent to a board program that has the real archive, and
 * every lent word read back. The command that runs the board program is in CFTREE_BOARD; it is started at the first call
 * and ends with this program. Where no true answer can be had, the program ends with a line on standard error and status 3.
 */
#define _GNU_SOURCE
#include "frame.h"
#include <poll.h>
#include <signal.h>
#include <stdarg.h>
#include <stdio.h>
#include <stdlib.h>
#include <string.h>
#include <sys/prctl.h>
#include <unistd.h>

enum { PATIENCE = 300 }; /* seconds that the board may take before it sends something */

typedef struct {
    const void *words;
    uint64_t count;
} lent;

static int to_board = -1, from_board = -1;

__attribute__((noreturn, format(printf, 1, 2))) static void fail(const char *form, ...) {
    va_list more;
    va_start(more, form);
    fputs("relay: ", stderr);
    vfprintf(stderr, form, more);
    fputc('\n', stderr);
    va_end(more);
    _Exit(3);
}

/* The board program, with pipes to it and from it; it does not outlive this one, even if it hangs. */
static void run_board(const char *command, const int calls[2], const int answers[2]) {
    prctl(PR_SET_PDEATHSIG, SIGKILL);
    signal(SIGPIPE, SIG_DFL);
    dup2(calls[0], 0);
    dup2(answers[1], 1);
    close(calls[0]), close(calls[1]), close(answers[0]), close(answers[1]);
    execl("/bin/sh", "sh", "-c", command, (char *)NULL);
    fail("/bin/sh can't be run");
}

static void start_board(void) {
    const char *command = getenv("CFTREE_BOARD");
    int calls[2], answers[2];
    pid_t child;
    if (!command) fail("CFTREE_BOARD is not set; it is the command that runs a board program");
    if (pipe(calls) || pipe(answers)) fail("no pipe to the board");
    signal(SIGPIPE, SIG_IGN); /* a board that has ended is seen by the write that fails */
    child = fork();
    if (child < 0) fail("no process for the board");
    if (child == 0) run_board(command, calls, answers);
    close(calls[0]), close(answers[1]);
    to_board = calls[1], from_board = answers[0];
}

/* Bytes to the board; 0 where it has gone. */
static int put(const void *bytes, size_t count) {
    for (const char *at = bytes; count;) {
        ssize_t gone = write(to_board, at, count);
        if (gone <= 0) return 0;
        at += gone, count -= (size_t)gone;
    }
    return 1;
}

/* Bytes from the board, all of them. */
static void get(const relay_function *f, void *bytes, size_t count) {
    for (char *at = bytes; count;) {
        struct pollfd ready = {.fd = from_board, .events = POLLIN};
        if (poll(&ready, 1, PATIENCE * 1000) == 0) fail("%s: no answer from the board in %d s", f->name, PATIENCE);
        ssize_t got = read(from_board, at, count);
        if (got <= 0) fail("%s: the board ended within the call", f->name);
        at += got, count -= (size_t)got;
    }
}

/* A slice that the call only reads, sent back: it has to be what was lent. */
static void get_same(const relay_function *f, const char *name, const void *lent, size_t count) {
    static char back[1 << 16];
    for (const char *at = lent; count;) {
        size_t part = count < sizeof back ? count : sizeof back;
        get(f, back, part);
        if (memcmp(back, at, part)) fail("%s: the call wrote %s, which it only reads", f->name, name);
        at += part, count -= part;
    }
}

/* Ends the program if the board did not do the call. */
static void expect_done(const relay_function *f, const relay_answer *answer, uint64_t bytes) {
    if (answer->magic != RELAY_ANSWERS) fail("%s: the board program is of another version of the frame", f->name);
    switch (answer->status) {
    case RELAY_DONE: return;
    case RELAY_NO_ROOM:
        fail("%s: %llu bytes are lent, and the board has memory for %llu with the guards between them", f->name,
             (unsigned long long)bytes, (unsigned long long)answer->detail);
    case RELAY_TOUCHED:
        if (answer->detail < RELAY_SLICES && f->slices[answer->detail].bytes)
            fail("%s: a word just before %s was changed", f->name, f->slices[answer->detail].name);
        fail("%s: a word just behind the last slice was changed", f->name);
    default: fail("%s: the board took it for no call (%u)", f->name, (unsigned)answer->status);
    }
}

/* One call: its frame and slices to the board, its answer and the slices back. */
static relay_result relayed(uint32_t function, cftree_head head, const lent slices[RELAY_SLICES]) {
    const relay_function *f = &relay_functions[function];
    relay_call call = {.magic = RELAY_CALLS, .function = function, .head = head};
    relay_answer answer;
    uint64_t bytes = 0;
    if (to_board < 0) start_board();
    for (size_t k = 0; k < RELAY_SLICES; k++) call.words[k] = slices[k].count;
    int sent = put(&call, sizeof call);
    for (size_t k = 0; k < RELAY_SLICES; k++) {
        sent = sent && put(slices[k].words, slices[k].count * f->slices[k].bytes);
        bytes += slices[k].count * f->slices[k].bytes;
    }
    /* a board that stopped reading has sent its reason, or has ended */
    get(f, &answer, sizeof answer);
    expect_done(f, &answer, bytes);
    for (size_t k = 0; k < RELAY_SLICES; k++) {
        size_t count = slices[k].count * f->slices[k].bytes;
        if (f->slices[k].written) get(f, (void *)(uintptr_t)slices[k].words, count);
        else get_same(f, f->slices[k].name, slices[k].words, count);
    }
    return answer.result;
}

static uint64_t number(uint32_t function, cftree_head head) {
    const lent none[RELAY_SLICES] = {{NULL, 0}};
    return relayed(function, head, none).number;
}

uint32_t cftree_version(void) {
    const cftree_head none = {0};
    return (uint32_t)number(RELAY_VERSION, none);
}

uint64_t cftree_floats_needed(cftree_head head) { return number(RELAY_FLOATS_NEEDED, head); }

uint64_t cftree_links_needed(cftree_head head) { return number(RELAY_LINKS_NEEDED, head); }

uint64_t cftree_scratch_floats_needed(cftree_head head) { return number(RELAY_SCRATCH_FLOATS_NEEDED, head); }

uint64_t cftree_scratch_links_needed(cftree_head head) { return number(RELAY_SCRATCH_LINKS_NEEDED, head); }

cftree_outcome cftree_create(cftree_head head, double *floats, uint64_t floats_len, uint32_t *links, uint64_t links_len) {
    const lent slices[RELAY_SLICES] = {{floats, floats_len}, {links, links_len}};
    return relayed(RELAY_CREATE, head, slices).outcome;
}

/* The three changing calls, which are lent the same. */
#define CHANGE(name, function)                                                                                              \
    cftree_outcome name(cftree_head head, double *floats, uint64_t floats_len, uint32_t *links, uint64_t links_len,        \
                        double *scratch_floats, uint64_t scratch_floats_len, uint32_t *scratch_links,                      \
                        uint64_t scratch_links_len, const double *rows, uint64_t rows_len) {                               \
        const lent slices[RELAY_SLICES] = {{floats, floats_len}, {links, links_len}, {scratch_floats, scratch_floats_len}, \
                                           {scratch_links, scratch_links_len}, {rows, rows_len}};                          \
        return relayed(function, head, slices).outcome;                                                                    \
    }
CHANGE(cftree_insert_row, RELAY_INSERT_ROW)
CHANGE(cftree_insert_batch, RELAY_INSERT_BATCH)
CHANGE(cftree_refit, RELAY_REFIT)

cftree_answer cftree_validate(cftree_head head, const double *floats, uint64_t floats_len, const uint32_t *links,
                              uint64_t links_len) {
    const lent slices[RELAY_SLICES] = {{floats, floats_len}, {links, links_len}};
    return relayed(RELAY_VALIDATE, head, slices).answer;
}

cftree_listing cftree_entries(cftree_head head, const double *floats, uint64_t floats_len, const uint32_t *links,
                              uint64_t links_len) {
    const lent slices[RELAY_SLICES] = {{floats, floats_len}, {links, links_len}};
    return relayed(RELAY_ENTRIES, head, slices).listing;
}

cftree_answer cftree_route(cftree_head head, const double *floats, uint64_t floats_len, const uint32_t *links,
                           uint64_t links_len, const double *rows, uint64_t rows_len, uint32_t *out, uint64_t out_len) {
    const lent slices[RELAY_SLICES] = {{floats, floats_len}, {links, links_len}, {rows, rows_len}, {out, out_len}};
    return relayed(RELAY_ROUTE, head, slices).answer;
}

cftree_answer cftree_spread(cftree_head head, const double *floats, uint64_t floats_len, const uint32_t *links,
                            uint64_t links_len, double *out, uint64_t out_len) {
    const lent slices[RELAY_SLICES] = {{floats, floats_len}, {links, links_len}, {out, out_len}};
    return relayed(RELAY_SPREAD, head, slices).answer;
}

/* board.c on an emulated controller: the emulator's own files by semihosting, which moves a whole buffer a call where a
 * serial line would move a byte, and the board's large memory for lent slices. A station has no such memory: it is there so
 * that trees of M 256 can be compared too. Code, data and stack stay in the memory that a station has. */
#include "port.h"
#include <stdint.h>

#ifndef RELAY_MEMORY
#error "RELAY_MEMORY is the address of the board's large memory, 16 MiB"
#endif

enum { SYS_OPEN = 0x01, SYS_WRITE = 0x05, SYS_READ = 0x06, SYS_EXIT = 0x18 };
enum { READ_BYTES = 1, WRITE_BYTES = 5, ENDED = 0x20026, FAILED = 0x20023 };

/* A request to the emulator: its number and its block of words. */
static uintptr_t asked(uintptr_t number, uintptr_t block) {
    register uintptr_t r0 __asm__("r0") = number;
    register uintptr_t r1 __asm__("r1") = block;
    __asm__ volatile("bkpt 0xab" : "+r"(r0) : "r"(r1) : "memory");
    return r0;
}

static uintptr_t opened(const char *path, uintptr_t length, uintptr_t mode) {
    uintptr_t block[3] = {(uintptr_t)path, mode, length};
    uintptr_t file = asked(SYS_OPEN, (uintptr_t)block);
    if (file == UINTPTR_MAX) relay_end(1);
    return file;
}

/* The answer to a read or a write is how many bytes are left; where it moves none, the host has gone. */
static int moved(uintptr_t number, uintptr_t file, uintptr_t bytes, uintptr_t count) {
    while (count) {
        uintptr_t block[3] = {file, bytes, count};
        uintptr_t left = asked(number, (uintptr_t)block);
        if (left >= count) return 0;
        bytes += count - left, count = left;
    }
    return 1;
}

unsigned char *relay_memory(void) { return (unsigned char *)RELAY_MEMORY; }

size_t relay_memory_bytes(void) { return (size_t)16 << 20; }

int relay_receive(void *bytes, size_t count) {
    static uintptr_t input;
    if (!input) input = opened("/dev/stdin", 10, READ_BYTES);
    return moved(SYS_READ, input, (uintptr_t)bytes, count);
}

int relay_send(const void *bytes, size_t count) {
    static uintptr_t output;
    if (!output) output = opened("/dev/stdout", 11, WRITE_BYTES);
    return moved(SYS_WRITE, output, (uintptr_t)bytes, count);
}

void relay_end(int status) {
    asked(SYS_EXIT, status ? FAILED : ENDED);
    for (;;) continue;
}

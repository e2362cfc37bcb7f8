/* The first UART of the MPS2 boards (Arm's CMSDK). Another board has another one: these registers are all that changes. */
#include "serial.h"

static volatile uint32_t *const uart = (volatile uint32_t *)0x40004000;
enum { DATA, STATE, CONTROL, DIVIDER = 4, SENDING = 1, FULL = 1, FASTEST = 16 };

void serial_start(void) {
    uart[DIVIDER] = FASTEST;
    uart[CONTROL] = SENDING;
}

void serial_put(const char *text) {
    for (; *text; text++) {
        while (uart[STATE] & FULL) {}
        uart[DATA] = (unsigned char)*text;
    }
}

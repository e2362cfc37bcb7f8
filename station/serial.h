/* A serial line of the example boards: what a station says, a byte at a time. */
#ifndef SERIAL_H
#define SERIAL_H

#include <stdint.h>

void serial_start(void);
void serial_put(const char *text);
void serial_number(uint64_t n);
/* A float as the 16 lowercase hex digits of its bits. */
void serial_hex(double x);

#endif

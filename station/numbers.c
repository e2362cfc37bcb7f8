/* Numbers as text for a serial line: whole ones in decimal, floats by their bits. */
#include "serial.h"
#include <string.h>

void serial_number(uint64_t n) {
    char digits[21];
    char *at = digits + sizeof digits - 1;
    *at = 0;
    do *--at = (char)('0' + n % 10);
    while (n /= 10);
    serial_put(at);
}

void serial_hex(double x) {
    uint64_t bits;
    char digits[17];
    memcpy(&bits, &x, sizeof bits);
    for (int i = 15; i >= 0; i--, bits >>= 4) digits[i] = "0123456789abcdef"[bits & 15];
    digits[16] = 0;
    serial_put(digits);
}

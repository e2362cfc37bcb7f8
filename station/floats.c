/* Operations on doubles, PAIRS pairs of every size, near each other and at every edge, each operation's results as one
 * number: station/run holds a board's against those of the machine that it runs on, whose processor has a unit for them.
 * Sums are the archive's own where it has its own; all else is the compiler's, as the archive calls it. */
#include "serial.h"
#include "sums.h"
#include <string.h>

#ifndef PAIRS
#define PAIRS 1000000
#endif
enum { SIZES = 2047, KINDS = 8 };

static uint64_t state = UINT64_C(88172645463325252);

static uint64_t drawn(void) {
    state ^= state << 13;
    state ^= state >> 7;
    state ^= state << 17;
    return state * UINT64_C(0x2545F4914F6CDD1D);
}

/* Bits with the exponent e, or the nearest that there is. */
static uint64_t sized(uint64_t bits, int64_t e) {
    uint64_t field = e < 0 ? 0 : e > SIZES ? SIZES : (uint64_t)e;
    return (bits & ~((uint64_t)SIZES << 52)) | field << 52;
}

/* Bits of nearly the same size. */
static uint64_t near(uint64_t bits, uint64_t other) {
    return sized(bits, (int64_t)(other >> 52 & SIZES) + (int64_t)(drawn() % 140) - 70);
}

/* The second of a pair: any, near the first's size (which may have few bits, as a power of two has, where a difference comes
 * to lie below it), of equal bits but for a few, or both at an end. */
static uint64_t partner(uint64_t *a) {
    uint64_t b = drawn();
    switch (drawn() % KINDS) {
    case 0: return b;
    case 1: case 2: return near(b, *a);
    case 3: *a &= UINT64_MAX << drawn() % 53; return near(b, *a);
    case 4: return *a ^ drawn() % 5 ^ (drawn() & 1) << 63;
    case 5: *a &= UINT64_MAX << drawn() % 53; return near(b & UINT64_MAX << drawn() % 53, *a);
    case 6: *a = sized(*a, (int64_t)(drawn() % 64)); return sized(b, (int64_t)(drawn() % 64));
    default: *a = sized(*a, SIZES - (int64_t)(drawn() % 4)); return sized(b, SIZES - (int64_t)(drawn() % 64));
    }
}

static double number(uint64_t bits) {
    double x;
    memcpy(&x, &bits, sizeof x);
    return x;
}

/* A result joins a digest; a NaN is one value. */
static void joined(uint64_t *digest, double x) {
    uint64_t bits;
    memcpy(&bits, &x, sizeof bits);
    if (bits << 1 > UINT64_C(0xffe0000000000000)) bits = UINT64_C(0x7ff8000000000000);
    *digest = (*digest ^ bits) * UINT64_C(0x100000001b3);
    *digest ^= *digest >> 29;
}

static uint64_t compared(double a, double b) {
    return (uint64_t)(a < b) | (uint64_t)(a <= b) << 1 | (uint64_t)(a == b) << 2 | (uint64_t)(a >= b) << 3 |
           (uint64_t)(a > b) << 4 | (uint64_t)(a != b) << 5;
}

int main(void) {
    static const char *const names[] = {"sum", "difference", "product", "quotient", "comparison", "number"};
    uint64_t digests[6] = {0};
    serial_start();
    for (unsigned i = 0; i < PAIRS; i++) {
        uint64_t a = drawn(), b = partner(&a);
        volatile double x = number(a), y = number(b);
        joined(&digests[0], cftree_dadd(x, y));
        joined(&digests[1], cftree_dsub(x, y));
        joined(&digests[2], x * y);
        joined(&digests[3], x / y);
        joined(&digests[4], number(compared(x, y)));
        joined(&digests[5], (double)(a >> b % 64));
    }
    for (unsigned i = 0; i < 6; i++) {
        serial_put(names[i]);
        serial_put("\t");
        serial_hex(number(digests[i]));
        serial_put("\n");
    }
    return 0;
}

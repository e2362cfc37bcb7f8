/* Runs the checks and says how many there were; the status is 0 where all hold. */
#include "checks.h"
#include "serial.h"

static const char *name;
static unsigned done, failed, is_failed;

static void end(void) {
    if (!name) return;
    done++;
    failed += is_failed;
    if (is_failed) return;
    serial_put("ok ");
    serial_put(name);
    serial_put("\n");
}

void begin(const char *next) {
    end();
    name = next;
    is_failed = 0;
}

uint64_t bits_of(double x) {
    union {
        double number;
        uint64_t bits;
    } word;
    word.number = x;
    return word.bits;
}

double float_of(uint64_t bits) {
    union {
        double number;
        uint64_t bits;
    } word;
    word.bits = bits;
    return word.number;
}

/* No float is touched here: the unit may be off. */
static void put_hex(uint64_t n) {
    char digits[17];
    for (int i = 15; i >= 0; i--, n >>= 4) digits[i] = "0123456789abcdef"[n & 15];
    digits[16] = 0;
    serial_put(digits);
}

void same(const char *what, uint64_t seen, uint64_t expected) {
    if (seen == expected || is_failed) return;
    is_failed = 1;
    serial_put("NOT SO ");
    serial_put(name);
    serial_put(": ");
    serial_put(what);
    serial_put(": seen ");
    put_hex(seen);
    serial_put(", expected ");
    put_hex(expected);
    serial_put("\n");
}

void holds(const char *what, int is_so) { same(what, is_so != 0, 1); }

static uint64_t one_nan(uint64_t bits) {
    return (bits & UINT64_C(0x7fffffffffffffff)) > UINT64_C(0x7ff0000000000000) ? UINT64_C(0x7ff8000000000000) : bits;
}

void same_float(const char *what, double seen, uint64_t expected) { same(what, one_nan(bits_of(seen)), one_nan(expected)); }

void same_answer(const char *what, cftree_answer seen, uint32_t number, uint64_t first, uint64_t second) {
    same(what, seen.number, number);
    same(what, seen.first, first);
    same(what, seen.second, second);
}

int main(void) {
    serial_start();
    check_unit();
    check_crossing();
    check_arguments();
    check_lengths();
    check_trees();
    check_routines();
    end();
    serial_number(done);
    serial_put(" checks, ");
    serial_number(failed);
    serial_put(" not so\n");
    return failed != 0;
}

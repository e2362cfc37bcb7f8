/* The routines that compiled code calls for floats and for 64-bit numbers, or the unit's instructions in their place: C's
 * operators on operands that a compiler does not know come to the same ones. The expected bits are IEEE 754's. */
#include "checks.h"
#include "sums.h"

static const struct {
    char operation;
    uint64_t a, b, expected;
} floating[] = {
    {'+', 0x3ff0000000000000, 0x3ca0000000000000, 0x3ff0000000000000},
    {'+', 0x3ff0000000000001, 0x3ca0000000000000, 0x3ff0000000000002},
    {'+', 0x7fefffffffffffff, 0x7c90000000000000, 0x7ff0000000000000},
    {'+', 0x7fefffffffffffff, 0x7c8fffffffffffff, 0x7fefffffffffffff},
    {'+', 0x7fefffffffffffff, 0x7fefffffffffffff, 0x7ff0000000000000},
    {'+', 0x0000000000000001, 0x0000000000000001, 0x0000000000000002},
    {'+', 0x000fffffffffffff, 0x0000000000000001, 0x0010000000000000},
    {'+', 0, 0x8000000000000000, 0},
    {'+', 0x8000000000000000, 0x8000000000000000, 0x8000000000000000},
    {'+', 0x3ff0000000000000, 0xbff0000000000000, 0},
    {'+', 0x7ff0000000000000, 0xfff0000000000000, 0x7ff8000000000000},
    {'+', 0x7ff8000000000000, 0x3ff0000000000000, 0x7ff8000000000000},
    {'+', 0x3f9000000000000c, 0xbd80000000000008, 0x3f8ffffffff00018},
    {'+', 0xc180000000000000, 0x3f7413939b913129, 0xc17fffffffebec6c},
    {'-', 0x3ff0000000000000, 0x3de81bb91c1fb913, 0x3fefffffffe7e447},
    {'-', 0x0010000000000000, 0x000fffffffffffff, 0x0000000000000001},
    {'-', 0x7ff0000000000000, 0x7ff0000000000000, 0x7ff8000000000000},
    {'-', 0x8000000000000000, 0, 0x8000000000000000},
    {'-', 0x3ff0000000000000, 0x3c90000000000001, 0x3fefffffffffffff},
    {'-', 0x3ff0000000000000, 0x3c90000000000000, 0x3ff0000000000000},
    {'*', 0x3ff0000000000001, 0x3ff0000000000001, 0x3ff0000000000002},
    {'*', 0x3ff0000000000001, 0x3ff8000000000000, 0x3ff8000000000002},
    {'*', 0x0000000000000001, 0x3fe0000000000000, 0},
    {'*', 0x0000000000000003, 0x3fe0000000000000, 0x0000000000000002},
    {'*', 0x0010000000000001, 0x3fe0000000000000, 0x0008000000000000},
    {'*', 0x1e60000000000000, 0x1e60000000000001, 0x0000000000000001},
    {'*', 0x7fefffffffffffff, 0x4000000000000000, 0x7ff0000000000000},
    {'*', 0, 0x7ff0000000000000, 0x7ff8000000000000},
    {'*', 0x8000000000000000, 0x4014000000000000, 0x8000000000000000},
    {'*', 0x7ff8000000000000, 0, 0x7ff8000000000000},
    {'/', 0x3ff0000000000000, 0x4008000000000000, 0x3fd5555555555555},
    {'/', 0x4000000000000000, 0x4008000000000000, 0x3fe5555555555555},
    {'/', 0x3ff0000000000000, 0x4014000000000000, 0x3fc999999999999a},
    {'/', 0x0000000000000001, 0x4000000000000000, 0},
    {'/', 0x0000000000000003, 0x4000000000000000, 0x0000000000000002},
    {'/', 0x0010000000000000, 0x4008000000000000, 0x0005555555555555},
    {'/', 0x3ff0000000000000, 0x0000000000000001, 0x7ff0000000000000},
    {'/', 0x3ff0000000000000, 0, 0x7ff0000000000000},
    {'/', 0xbff0000000000000, 0, 0xfff0000000000000},
    {'/', 0, 0, 0x7ff8000000000000},
    {'/', 0x7ff0000000000000, 0x7ff0000000000000, 0x7ff8000000000000},
    {'/', 0x7ff8000000000000, 0x3ff0000000000000, 0x7ff8000000000000},
    {'/', 0x7fefffffffffffff, 0x3fe0000000000000, 0x7ff0000000000000},
};

/* Which of < <= > >= == and unordered hold, as bits 0 to 5. */
static const struct {
    uint64_t a, b;
    unsigned expected;
} compared[] = {
    {0x3ff0000000000000, 0x4000000000000000, 0x03}, {0x4000000000000000, 0x3ff0000000000000, 0x0c},
    {0x3ff0000000000000, 0x3ff0000000000000, 0x1a}, {0, 0x8000000000000000, 0x1a},
    {0x8000000000000000, 0, 0x1a},                  {0x7ff8000000000000, 0x3ff0000000000000, 0x20},
    {0x3ff0000000000000, 0x7ff8000000000000, 0x20}, {0x7ff8000000000000, 0x7ff8000000000000, 0x20},
    {0x7ff0000000000001, 0xfff0000000000000, 0x20}, {0x7fefffffffffffff, 0x7ff0000000000000, 0x03},
    {0xfff0000000000000, 0x7ff0000000000000, 0x03}, {0x7ff0000000000000, 0x7ff0000000000000, 0x1a},
    {0x0000000000000001, 0, 0x0c},                  {0x8000000000000001, 0x8000000000000000, 0x03},
    {0x000fffffffffffff, 0x0010000000000000, 0x03}, {0x3ff0000000000000, 0x3ff0000000000001, 0x03},
    {0xbff0000000000001, 0xbff0000000000000, 0x03}, {0xbff0000000000000, 0x3ff0000000000000, 0x03},
};

/* Whole numbers as floats, to nearest and ties to even. */
static const struct {
    uint64_t number, expected;
} whole[] = {
    {0, 0},
    {1, 0x3ff0000000000000},
    {0xffffffff, 0x41efffffffe00000},
    {0x100000000, 0x41f0000000000000},
    {0x1fffffffffffff, 0x433fffffffffffff},
    {0x20000000000000, 0x4340000000000000},
    {0x20000000000001, 0x4340000000000000},
    {0x20000000000002, 0x4340000000000001},
    {0x20000000000003, 0x4340000000000002},
    {0x7ffffffffffffbff, 0x43dfffffffffffff},
    {0x7ffffffffffffe00, 0x43e0000000000000},
    {0xffffffffffffffff, 0x43f0000000000000},
};

static const struct {
    uint64_t a, b, quotient, rest;
} divided[] = {
    {0xffffffffffffffff, 10, 0x1999999999999999, 5},
    {0x100000000, 3, 0x55555555, 1},
    {0x123456789abcdef0, 0x100000001, 0x12345678, 0x88888878},
    {5, 0x100000000, 0, 5},
    {0xffffffffffffffff, 0xffffffffffffffff, 1, 0},
    {0x8000000000000000, 0x7fffffffffffffff, 1, 1},
};

static double done(char operation, volatile double a, volatile double b) {
    switch (operation) {
    case '+': return cftree_dadd(a, b);
    case '-': return cftree_dsub(a, b);
    case '*': return a * b;
    default: return a / b;
    }
}

static unsigned comparisons(volatile double a, volatile double b) {
    return (unsigned)(a < b) | (unsigned)(a <= b) << 1 | (unsigned)(a > b) << 2 | (unsigned)(a >= b) << 3 |
           (unsigned)(a == b) << 4 | (unsigned)(__builtin_isunordered(a, b) != 0) << 5;
}

#define COUNT(a) (sizeof(a) / sizeof((a)[0]))

void check_routines(void) {
    begin("sums, differences, products and quotients");
    for (unsigned i = 0; i < COUNT(floating); i++) {
        const char name[2] = {floating[i].operation, 0};
        same_float(name, done(floating[i].operation, float_of(floating[i].a), float_of(floating[i].b)), floating[i].expected);
    }
    begin("comparisons");
    for (unsigned i = 0; i < COUNT(compared); i++)
        same("< <= > >= == unordered", comparisons(float_of(compared[i].a), float_of(compared[i].b)), compared[i].expected);
    begin("whole numbers as floats");
    for (unsigned i = 0; i < COUNT(whole); i++) {
        volatile uint64_t number = whole[i].number;
        same_float("a whole number", (double)number, whole[i].expected);
    }
    begin("quotients of 64-bit numbers");
    for (unsigned i = 0; i < COUNT(divided); i++) {
        volatile uint64_t a = divided[i].a, b = divided[i].b;
        same("quotient", a / b, divided[i].quotient);
        same("rest", a % b, divided[i].rest);
    }
}

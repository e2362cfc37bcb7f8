/* Sums of doubles where a processor has no double-precision unit: IEEE 754's, to nearest with ties to even, in every case.
 * bin/library puts them in the archive and has it call them by these names, since the compiler's library can't be relied on:
 * GCC 12.2's for Arm has 1 - 0x1.81bb91c1fb913p-33 one unit too low (exponents 33 apart, opposite signs, and a sum below the
 * larger one's power of two: the bit to round by is lost). Its products, quotients and comparisons are compared and serve.
 * No header is needed, so that any compiler takes it alone. */
typedef unsigned long long u64;

double cftree_dadd(double a, double b);
double cftree_dsub(double a, double b);

static const u64 SIGN = 1ull << 63, INFINITE = 0x7ffull << 52, QUIET = 1ull << 51, HIDDEN = 1ull << 52;

static double number(u64 bits) {
    union { u64 bits; double number; } word = {bits};
    return word.number;
}

static u64 bits(double x) {
    union { double number; u64 bits; } word = {x};
    return word.bits;
}

/* Of a magnitude: its exponent, 1 for subnormals, and its mantissa. */
static u64 exponent(u64 x) { return x < HIDDEN ? 1 : x >> 52; }
static u64 mantissa(u64 x) { return x < HIDDEN ? x : (x & (HIDDEN - 1)) | HIDDEN; }

/* m shifted down; its last bit says too whether a set bit was lost. */
static u64 shifted(u64 m, u64 by) {
    if (by == 0) return m;
    return by > 63 ? m != 0 : m >> by | ((m << (64 - by)) != 0);
}

/* The double nearest to m / 8 units in the last place of this exponent; m has 56 bits, or fewer where the exponent is 1. */
static double rounded(u64 sign, u64 exponent, u64 m) {
    u64 kept = (m >> 3) + ((exponent - 1) << 52), lost = m & 7;
    kept += lost > 4 || (lost == 4 && (kept & 1));
    return number(sign | (kept < INFINITE ? kept : INFINITE));
}

/* The same of any m of up to 57 bits but 0: brought to 56 bits, or as near as exponent 1 lets it. */
static double aligned(u64 sign, u64 exponent, u64 m) {
    u64 zeros = (u64)__builtin_clzll(m);
    if (zeros < 8) return rounded(sign, exponent + 1, shifted(m, 1));
    u64 by = zeros - 8 < exponent ? zeros - 8 : exponent - 1;
    return rounded(sign, exponent - by, m << by);
}

/* Of two doubles by their bits, the larger magnitude x first. */
static double ordered(u64 a, u64 b, u64 x, u64 y) {
    if (x > INFINITE) return number(a | QUIET);
    if (x == INFINITE) return number(y == INFINITE && a != b ? INFINITE | QUIET : a);
    if (x == 0) return number(a & b);
    u64 m = mantissa(x) << 3, n = shifted(mantissa(y) << 3, exponent(x) - exponent(y));
    m = (a ^ b) & SIGN ? m - n : m + n;
    return m ? aligned(a & SIGN, exponent(x), m) : 0.0;
}

static double sum(u64 a, u64 b) {
    u64 x = a & ~SIGN, y = b & ~SIGN;
    return x < y ? ordered(b, a, y, x) : ordered(a, b, x, y);
}

double cftree_dadd(double a, double b) { return sum(bits(a), bits(b)); }
double cftree_dsub(double a, double b) { return sum(bits(a), bits(b) ^ SIGN); }

/* Sums of doubles as an archive takes them: by its own routines without a double-precision unit (soft.c), else by the unit. */
#ifndef SUMS_H
#define SUMS_H

/* gcc and clang define it where floats are soft; a machine with a unit defines it to try soft.c. */
#ifdef __SOFTFP__
double cftree_dadd(double a, double b);
double cftree_dsub(double a, double b);
#else
static double cftree_dadd(double a, double b) { return a + b; }
static double cftree_dsub(double a, double b) { return a - b; }
#endif

#endif

/* The floating-point unit, where the program is compiled for one: start-up code has switched it on, and left it to round to
 * nearest and to keep subnormals and NaNs; an interrupt handler begins with the same. */
#include "checks.h"

#ifdef __ARM_FP
enum { FULL_ACCESS = 0xf << 20, ROUNDING = 3 << 22, FLUSHING = 1 << 24, ONE_NAN = 1 << 25, OTHER_HALVES = 1 << 26 };

static void check_status(const char *whose, uint32_t status) {
    begin(whose);
    same("rounding", status & ROUNDING, 0);
    same("subnormals flushed", status & FLUSHING, 0);
    same("one NaN for all", status & ONE_NAN, 0);
    same("other half floats", status & OTHER_HALVES, 0);
}

void check_unit(void) {
    uint32_t status;
    begin("the unit is on");
    same("access", *(volatile uint32_t *)0xE000ED88 & FULL_ACCESS, FULL_ACCESS);
    __asm__ volatile("vmrs %0, fpscr" : "=r"(status));
    check_status("the unit's status word", status);
    check_status("the status word that a handler begins with", *(volatile uint32_t *)0xE000EF3C);
}
#else
void check_unit(void) {}
#endif

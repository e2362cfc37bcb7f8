/* Start-up of an example board: a Cortex-M takes its stack and its first instruction from the first two words of memory.
 * A station's maker has start-up code of his own; what the library asks of it is marked "needed". */
#include <stdint.h>

extern uint32_t data_from[], data_start[], data_end[], bss_start[], bss_end[], stack_top[];
int main(void);
void started(void);

/* The end of a run: an emulator or a debugger takes this call of semihosting and stops with the status. */
static void ended(int status) {
    const uint32_t why[2] = {0x20026, (uint32_t)status};
    __asm volatile("mov r0, #0x20\n mov r1, %0\n bkpt 0xab" : : "r"(why) : "r0", "r1", "memory");
    for (;;) {}
}

static void fault(void) { ended(70); }

/* Needed on a processor with a double-precision unit: it is switched on, rounds to nearest and keeps subnormals. */
static void unit_on(void) {
#ifdef __ARM_FP
    *(volatile uint32_t *)0xE000ED88 |= 0xFu << 20; /* CPACR: full access */
    __asm volatile("dsb\n isb\n vmsr fpscr, %0" : : "r"(0) : "memory");
#endif
}

void started(void) {
    const uint32_t *from = data_from;
    unit_on();
    for (uint32_t *to = data_start; to < data_end; to++) *to = *from++;
    for (uint32_t *to = bss_start; to < bss_end; to++) *to = 0;
    ended(main());
}

/* The vectors: stack, start, and the faults that a processor can raise by itself. */
__attribute__((section(".vectors"), used)) static const struct {
    uint32_t *stack;
    void (*at[15])(void);
} vectors = {stack_top, {started, fault, fault, fault, fault, fault}};

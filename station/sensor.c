/* The sensors of the example: the rows of samples/day, which station/run writes to day.h, one at each tick of the
 * processor's timer. A tick is 10 seconds on a station and a tenth of a millisecond here, so that a day takes a second. */
#include "sensor.h"
#include "day.h"
#include <stdint.h>
#include <string.h>

enum { CLOCK_HZ = 25000000, TICK_HZ = 10000, ON = 1, CLOCKED = 4, PASSED = 1 << 16 };

static volatile uint32_t *const timer = (volatile uint32_t *)0xE000E010; /* SysTick: control, reload, current */
static unsigned at;

void sensor_start(void) {
    timer[1] = CLOCK_HZ / TICK_HZ - 1;
    timer[2] = 0;
    timer[0] = ON | CLOCKED;
}

int sensor_row(double row[4]) {
    if (at == DAY_ROWS) return 0;
    while (!(timer[0] & PASSED)) {} /* reading it clears it */
    memcpy(row, day[at++], 4 * sizeof row[0]);
    return 1;
}

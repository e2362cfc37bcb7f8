/* The serial line of a machine with a screen: standard output. */
#include "serial.h"
#include <stdio.h>

void serial_start(void) {}

void serial_put(const char *text) { fputs(text, stdout); }

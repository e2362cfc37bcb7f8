/* What board.c asks of the machine that it runs on. */
#ifndef RELAY_PORT_H
#define RELAY_PORT_H

#include <stddef.h>

/* Memory for lent slices, aligned for doubles, and its bytes. */
unsigned char *relay_memory(void);
size_t relay_memory_bytes(void);

/* So many bytes from the host or to it: 1, or 0 where the host has closed its end. */
int relay_receive(void *bytes, size_t count);
int relay_send(const void *bytes, size_t count);

/* Ends the program. */
void relay_end(int status);

#endif

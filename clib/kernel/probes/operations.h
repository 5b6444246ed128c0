/* The calls that are made in every state, and what each one answers. */
#ifndef OPERATIONS_H
#define OPERATIONS_H

#include "probe.h"

/* two files of the board, neither of which waits */
extern int files[2];
/* the counts of both buffers at the start of a state, in bytes: what a slow command moves at its start isn't counted */
extern unsigned written_before[2], read_before[2];

/* Makes the call number `number`, and prints its name and answer into texts. */
void operate(unsigned number, char *name, char *said, size_t size);
unsigned operations_count(void);
int read_bytes(int file, size_t bytes, char *said, size_t size);
/* Prints the counts of a buffer, or the error of asking for them. */
void say_counts(int file, unsigned subdevice, unsigned read, unsigned written, char *said, size_t size);

#endif

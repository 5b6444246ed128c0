/* The error numbers of the kernel where the session has others. */
#ifndef KERNEL_H
#define KERNEL_H

#include <comedi.h>

struct subdevice;

enum call { CALL_LOCK, CALL_UNLOCK, CALL_CANCEL, CALL_COMMAND, CALL_TEST, CALL_READ, CALL_WRITE, CALL_BUFFER, CALL_INSTRUCTION, CALL_TRIGGER };

int kernel_result(enum call call, int result);
int kernel_refuses_entries(const struct subdevice *s, const unsigned *list, unsigned count);

#endif

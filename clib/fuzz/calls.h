/* The calls of a client that a fuzzer has made. */
#ifndef CALLS_H
#define CALLS_H

int calls_begin(void);
void calls_make(char letter);
void calls_end(void);

#endif

/* The client's clocks, and times as they show them. */
#ifndef CLOCKS_H
#define CLOCKS_H

#include <stdint.h>
#include <time.h>

struct timespec clocks_time(uint64_t nanoseconds);
struct timespec clocks_of_wall(uint64_t nanoseconds);
int64_t clocks_nanoseconds(const struct timespec *time);
int clocks_is_time(const struct timespec *time);
int clocks_rule(clockid_t clock, const struct timespec *time);
uint64_t clocks_end(clockid_t clock, const struct timespec *time);
clockid_t clocks_guess(const struct timespec *time);

#endif

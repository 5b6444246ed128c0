/*
 * The clocks that a client asks. From the first open on they show its own time. They start at what the system's showed, a
 * whole second up, so that what a client noted before stays in the past, and the fractions are those of the board. Or the
 * date starts at one that is set.
 */
#define _GNU_SOURCE
#include "clocks.h"
#include "device.h"
#include "names.h"
#include <sys/time.h>
#include <time.h>

#define SECOND 1000000000ull
#define LONGEST (INT64_MAX / 4)
#define NO_CLOCK (-1)

/* The clock that one goes with, or NO_CLOCK where it shows another time, as that of a processor. */
static int clock_of(clockid_t clock)
{
	switch (clock) {
	case CLOCK_REALTIME:
	case CLOCK_REALTIME_COARSE:
	case CLOCK_REALTIME_ALARM:
		return CLOCK_REALTIME;
	case CLOCK_MONOTONIC:
	case CLOCK_MONOTONIC_COARSE:
		return CLOCK_MONOTONIC;
	case CLOCK_BOOTTIME:
	case CLOCK_BOOTTIME_ALARM:
		return CLOCK_BOOTTIME;
	case CLOCK_MONOTONIC_RAW:
	case CLOCK_TAI:
		return clock;
	}
	return NO_CLOCK;
}

/* What the clocks show at the board's time 0. A date that is set is that of the clocks that show dates; the others go on, so
 * that none falls. */
void clocks_start(void)
{
	struct timespec now;
	for (int i = 0; i < CLOCKS; i++)
		if (clock_of(i) == i && !REAL(clock_gettime)(i, &now))
			device->clock_start[i] = (now.tv_sec + 1) * SECOND;
	if (!device->start_date)
		return;
	uint64_t ahead = device->clock_start[CLOCK_TAI] - device->clock_start[CLOCK_REALTIME];
	device->clock_start[CLOCK_REALTIME] = device->start_date * SECOND;
	device->clock_start[CLOCK_TAI] = device->start_date * SECOND + ahead;
}

struct timespec clocks_time(uint64_t nanoseconds)
{
	return (struct timespec){ nanoseconds / SECOND, nanoseconds % SECOND };
}

/* A time in nanoseconds, or -1 where there is none. What is longer than 70 years, or later than 2042, is all the same. */
int64_t clocks_nanoseconds(const struct timespec *time)
{
	if (!time)
		return -1;
	return time->tv_sec < LONGEST / 1000000000 ? time->tv_sec * 1000000000ll + time->tv_nsec : LONGEST;
}

/* A time that the kernel would refuse goes to it. */
int clocks_is_time(const struct timespec *time)
{
	return time && time->tv_sec >= 0 && time->tv_nsec >= 0 && time->tv_nsec < 1000000000;
}

/* Whether a wait up to a time of a clock is one of the client's time. */
int clocks_rule(clockid_t clock, const struct timespec *time)
{
	return time_is_shown() && clock_of(clock) != NO_CLOCK && clocks_is_time(time);
}

/* The client's time when a clock shows a time, or NEVER. */
uint64_t clocks_end(clockid_t clock, const struct timespec *time)
{
	uint64_t shown = clocks_nanoseconds(time), start = device->clock_start[clock_of(clock)];
	if (shown == LONGEST)
		return NEVER;
	return shown < start ? 0 : shown - start;
}

/* A condition variable doesn't say which clock it goes by: the one that is nearer to its time. */
clockid_t clocks_guess(const struct timespec *time)
{
	uint64_t date = device->clock_start[CLOCK_REALTIME], running = device->clock_start[CLOCK_MONOTONIC];
	return (uint64_t)clocks_nanoseconds(time) < date / 2 + running / 2 ? CLOCK_MONOTONIC : CLOCK_REALTIME;
}

/* What the system's clock that never falls shows after so many nanoseconds. */
struct timespec clocks_of_wall(uint64_t nanoseconds)
{
	return clocks_time(time_of_wall() + (nanoseconds < LONGEST ? nanoseconds : LONGEST));
}

PUBLIC int clock_gettime(clockid_t clock, struct timespec *to)
{
	if (!time_is_shown() || clock_of(clock) == NO_CLOCK)
		return REAL(clock_gettime)(clock, to);
	*to = clocks_time(device->clock_start[clock_of(clock)] + time_look());
	return 0;
}

PUBLIC int gettimeofday(struct timeval *restrict to, void *restrict zone)
{
	/* a client may ask for its zone alone, though the header forbids it */
	struct timeval *volatile place = to;
	struct timespec now;
	if (zone || !time_is_shown())
		REAL(gettimeofday)(to, zone);
	if (!time_is_shown() || !place)
		return 0;
	clock_gettime(CLOCK_REALTIME, &now);
	*to = (struct timeval){ now.tv_sec, now.tv_nsec / 1000 };
	return 0;
}

PUBLIC time_t time(time_t *to)
{
	struct timespec now;
	if (!time_is_shown())
		return REAL(time)(to);
	clock_gettime(CLOCK_REALTIME, &now);
	if (to)
		*to = now.tv_sec;
	return now.tv_sec;
}

PUBLIC int timespec_get(struct timespec *to, int base)
{
	if (!time_is_shown() || base != TIME_UTC)
		return REAL(timespec_get)(to, base);
	clock_gettime(CLOCK_REALTIME, to);
	return base;
}

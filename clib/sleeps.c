/*
 * The C library's names that sleep. A sleep takes board time.
 */
#define _GNU_SOURCE
#include "clocks.h"
#include "names.h"
#include <errno.h>
#include <time.h>
#include <unistd.h>

PUBLIC int usleep(useconds_t microseconds)
{
	int64_t left = signals_sleep(microseconds * 1000ull);
	if (left == SLEEP_IS_REAL)
		return REAL(usleep)(microseconds);
	return left ? names_answer(-EINTR) : 0;
}

PUBLIC unsigned sleep(unsigned seconds)
{
	int64_t left = signals_sleep(seconds * 1000000000ull);
	return left == SLEEP_IS_REAL ? REAL(sleep)(seconds) : (left + 999999999) / 1000000000;
}

static int answer_sleep(int64_t nanoseconds, struct timespec *left)
{
	if (left && nanoseconds)
		*left = clocks_time(nanoseconds);
	return nanoseconds ? -1 : 0;
}

PUBLIC int nanosleep(const struct timespec *time, struct timespec *left)
{
	int64_t rest = clocks_is_time(time) ? signals_sleep(clocks_nanoseconds(time)) : SLEEP_IS_REAL;
	if (rest == SLEEP_IS_REAL)
		return REAL(nanosleep)(time, left);
	return answer_sleep(rest, left) ? names_answer(-EINTR) : 0;
}

/* A sleep up to a time of a clock. Where that is the system's it is a sleep of what is left up to then. */
static int64_t sleep_until(clockid_t clock, const struct timespec *time)
{
	struct timespec now;
	if (clocks_rule(clock, time))
		return signals_sleep_until(clocks_end(clock, time));
	if (!time_is_board_time() || clock_gettime(clock, &now))
		return SLEEP_IS_REAL;
	int64_t left = clocks_nanoseconds(time) - clocks_nanoseconds(&now);
	return signals_sleep(left > 0 ? left : 0);
}

/* This name answers its error itself. */
PUBLIC int clock_nanosleep(clockid_t clock, int flags, const struct timespec *time, struct timespec *left)
{
	int64_t rest = SLEEP_IS_REAL;
	if (clocks_is_time(time))
		rest = flags & TIMER_ABSTIME ? sleep_until(clock, time) : signals_sleep(clocks_nanoseconds(time));
	if (rest == SLEEP_IS_REAL)
		return REAL(clock_nanosleep)(clock, flags, time, left);
	return answer_sleep(rest, flags & TIMER_ABSTIME ? NULL : left) ? EINTR : 0;
}

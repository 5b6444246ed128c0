/*
 * Waits of the kernel's own locks (futex), which GLib and the library of Rust make by the C library's name for any system
 * call. One with an end takes its time as other waits do.
 */
#define _GNU_SOURCE
#include "clocks.h"
#include "device.h"
#include "names.h"
#include <errno.h>
#include <linux/futex.h>
#include <stdarg.h>
#include <sys/syscall.h>
#include <unistd.h>

/* A wait: the address and what stands there, whose waits it is among, and which wakes end it. */
struct futex {
	long address, value, is_private, wakes;
};

static int pause_futex(void *what, uint64_t nanoseconds, const sigset_t *signals)
{
	const struct futex *f = what;
	struct timespec end = clocks_of_wall(nanoseconds);
	int error = EINTR;
	if (!signals_let_in(signals))
		error = REAL(syscall)(SYS_futex, f->address, FUTEX_WAIT_BITSET | f->is_private, f->value, &end, NULL, f->wakes) ? errno : 0;
	signals_keep_out(signals);
	return !error ? CAME : error == ETIMEDOUT ? 0 : -error;
}

static long wait_for_futex(const struct futex *f, uint64_t end)
{
	int result = turns_wait(end, &(struct wait){ .pause = pause_futex, .what = (void *)f });
	return result == CAME ? 0 : names_answer(result ? result : -ETIMEDOUT);
}

/* Whether a call is a wait with an end, and which. One of them goes for so long, the other up to a time. */
static int is_wait(long call, long operation, const struct timespec *time, uint64_t *end)
{
	clockid_t clock = operation & FUTEX_CLOCK_REALTIME ? CLOCK_REALTIME : CLOCK_MONOTONIC;
	long command = operation & FUTEX_CMD_MASK;
	if (call != SYS_futex || (command != FUTEX_WAIT && command != FUTEX_WAIT_BITSET) || !clocks_rule(clock, time))
		return 0;
	*end = command == FUTEX_WAIT ? time_after(clocks_nanoseconds(time)) : clocks_end(clock, time);
	return 1;
}

/* Passes on all six words that a system call can have. If the client gave fewer, the others are from beyond them on its
 * stack, and mean nothing. */
__attribute__((no_sanitize("address"))) PUBLIC long syscall(long call, ...)
{
	long words[6];
	va_list values;
	va_start(values, call);
	for (int i = 0; i < 6; i++)
		words[i] = va_arg(values, long);
	va_end(values);
	uint64_t end;
	if (!is_wait(call, words[1], (const struct timespec *)words[3], &end))
		return REAL(syscall)(call, words[0], words[1], words[2], words[3], words[4], words[5]);
	long wakes = (words[1] & FUTEX_CMD_MASK) == FUTEX_WAIT ? (long)FUTEX_BITSET_MATCH_ANY : words[5];
	return wait_for_futex(&(struct futex){ words[0], words[2], words[1] & FUTEX_PRIVATE_FLAG, wakes }, end);
}

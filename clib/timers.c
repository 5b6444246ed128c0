/*
 * Timers that are files (timerfd). One that is set after a board was opened goes by the client's time. Its file is the
 * kernel's own: when the timer is due it is set there to a time long past, so that it is ready for everyone who asks.
 */
#define _GNU_SOURCE
#include "clocks.h"
#include "descriptors.h"
#include "device.h"
#include "names.h"
#include <errno.h>
#include <fcntl.h>
#include <poll.h>
#include <sys/timerfd.h>
#include <unistd.h>

#define MOST_TIMERS 64

/* A timer, and a set of descriptors that has it. */
struct timer {
	int is_there, descriptor, set, is_set_here;
	clockid_t clock;
	uint64_t next, interval, count;
};

static struct timer timers[MOST_TIMERS];
/* no timer from here on was ever there */
static int most_timers;

/* Returns the timer that a number is, or NULL, within the lock of the descriptors. */
static struct timer *find(int descriptor)
{
	int index = descriptors_timer(descriptor);
	return index == NO_TIMER || !timers[index].is_there ? NULL : timers + index;
}

static int is_any_there(void)
{
	return __atomic_load_n(&most_timers, __ATOMIC_ACQUIRE) > 0;
}

static void add(int descriptor, clockid_t clock)
{
	for (int i = 0; i < MOST_TIMERS; i++)
		if (!timers[i].is_there) {
			timers[i] = (struct timer){ 1, descriptor, -1, 0, clock, NEVER, 0, 0 };
			descriptors_put_timer(descriptor, i);
			if (i >= most_timers)
				__atomic_store_n(&most_timers, i + 1, __ATOMIC_RELEASE);
			break;
		}
}

PUBLIC int timerfd_create(clockid_t clock, int flags)
{
	struct quiet quiet;
	int descriptor = REAL(timerfd_create)(clock, flags);
	if (descriptor < 0)
		return descriptor;
	openings_fresh(descriptor);
	descriptors_enter(&quiet);
	add(descriptor, clock);
	descriptors_leave(&quiet);
	return descriptor;
}

/* Forgets a timer that is closed. */
void timers_forget(int index)
{
	timers[index].is_there = 0;
}

/* A number is no set any more. */
void timers_forget_set(int set)
{
	for (int i = 0; i < most_timers; i++)
		if (timers[i].set == set)
			timers[i].set = -1;
}

/* A set of descriptors has a timer from now on, or has it no more where the set is -1. */
void timers_put(int descriptor, int set)
{
	struct quiet quiet;
	if (!is_any_there())
		return;
	descriptors_enter(&quiet);
	struct timer *t = find(descriptor);
	if (t)
		t->set = set;
	descriptors_leave(&quiet);
}

/* Returns whether a timer has a number, or is in the set that has it. */
static int is_in(const struct timer *t, int descriptor)
{
	return t->is_there && (t->descriptor == descriptor || t->set == descriptor);
}

/* Whether a descriptor is a timer, or a set that has one. */
int timers_are_in(int descriptor)
{
	struct quiet quiet;
	int are = 0;
	if (!is_any_there() || descriptor < 0)
		return 0;
	descriptors_enter(&quiet);
	for (int i = 0; i < most_timers; i++)
		are |= is_in(timers + i, descriptor);
	descriptors_leave(&quiet);
	return are;
}

/* When the next of these timers is due. */
uint64_t timers_next(int descriptor)
{
	struct quiet quiet;
	uint64_t first = NEVER;
	if (!is_any_there() || descriptor < 0)
		return NEVER;
	descriptors_enter(&quiet);
	for (int i = 0; i < most_timers; i++)
		if (is_in(timers + i, descriptor) && timers[i].next < first)
			first = timers[i].next;
	descriptors_leave(&quiet);
	return first;
}

/* The file gets ready, by the kernel's own hand: that may take it some microseconds. */
static void make_ready(const struct timer *t)
{
	const struct itimerspec past = { .it_value.tv_nsec = 1 };
	struct pollfd asked = { t->descriptor, POLLIN, 0 };
	REAL(timerfd_settime)(t->descriptor, TFD_TIMER_ABSTIME, &past, NULL);
	REAL(poll)(&asked, 1, 1000);
}

/* Counts what is due of a timer. */
static void ring(struct timer *t)
{
	uint64_t now = device->client_now;
	if (!t->is_there || t->next > now)
		return;
	uint64_t times = t->interval ? 1 + (now - t->next) / t->interval : 1;
	if (!t->count)
		make_ready(t);
	t->count += times;
	t->next = t->interval ? t->next + times * t->interval : NEVER;
}

/* Counts what is due of all. Within the device. */
void timers_ring(void)
{
	if (!is_any_there())
		return;
	descriptors_hold();
	for (int i = 0; i < most_timers; i++)
		ring(timers + i);
	descriptors_let_go();
}

static struct itimerspec what_is_left(const struct timer *t)
{
	struct itimerspec left = { clocks_time(t->interval), { 0, 0 } };
	if (t->next != NEVER)
		left.it_value = clocks_time(t->next > device->client_now ? t->next - device->client_now : 1);
	return left;
}

/* Sets a timer to the client's time. Within the device and the lock. */
static void set_here(struct timer *t, int flags, const struct itimerspec *to)
{
	static const struct itimerspec never;
	int64_t value = clocks_nanoseconds(&to->it_value);
	REAL(timerfd_settime)(t->descriptor, 0, &never, NULL);
	t->is_set_here = 1;
	t->count = 0;
	t->interval = clocks_nanoseconds(&to->it_interval);
	t->next = !value ? NEVER : flags & TFD_TIMER_ABSTIME ? clocks_end(t->clock, &to->it_value) : time_after(value);
}

/* Returns whether the kernel has a timer under this number. A timer may have been closed past the names. */
static int is_timer(int descriptor)
{
	struct itimerspec left;
	int error = errno, is = descriptors_timer(descriptor) != NO_TIMER && !REAL(timerfd_gettime)(descriptor, &left);
	errno = error;
	return is;
}

/* Sets a timer to the client's time. Returns 1, or 0 if the timer goes by the system's, or a negative error number. */
static int set_time(int descriptor, int flags, const struct itimerspec *to, struct itimerspec *old)
{
	struct itimerspec wanted, before = { 0 };
	int result = 0;
	device_enter();
	int can = !copy_in(&wanted, to, sizeof wanted) && clocks_is_time(&wanted.it_interval);
	timers_ring();
	descriptors_hold();
	struct timer *t = find(descriptor);
	if (t && can && clocks_rule(t->clock, &wanted.it_value)) {
		result = 1;
		if (t->is_set_here)
			before = what_is_left(t);
		else
			REAL(timerfd_gettime)(descriptor, &before);
		set_here(t, flags, &wanted);
	} else if (t)
		t->is_set_here = 0;
	descriptors_let_go();
	if (result && old && copy_out(old, &before, sizeof before))
		result = -EFAULT;
	device_leave();
	return result;
}

PUBLIC int timerfd_settime(int descriptor, int flags, const struct itimerspec *to, struct itimerspec *old)
{
	int result = time_is_shown() && is_timer(descriptor) ? set_time(descriptor, flags, to, old) : 0;
	return result ? names_answer(result < 0 ? result : 0) : REAL(timerfd_settime)(descriptor, flags, to, old);
}

PUBLIC int timerfd_gettime(int descriptor, struct itimerspec *left)
{
	if (!timers_are_read(descriptor))
		return REAL(timerfd_gettime)(descriptor, left);
	struct itimerspec its = { 0 };
	device_enter();
	timers_ring();
	descriptors_hold();
	const struct timer *t = find(descriptor);
	if (t)
		its = what_is_left(t);
	descriptors_let_go();
	int error = copy_out(left, &its, sizeof its);
	device_leave();
	return names_answer(error);
}

/* How often a timer was due since it was read, which sets it back to 0. */
static uint64_t take_count(int descriptor)
{
	uint64_t count = 0, one;
	device_enter();
	timers_ring();
	descriptors_hold();
	struct timer *t = find(descriptor);
	if (t && t->count && REAL(read)(descriptor, &one, sizeof one) == sizeof one) {
		count = t->count;
		t->count = 0;
	}
	descriptors_let_go();
	device_leave();
	return count;
}

/* Whether a descriptor is a timer of the client's time. */
int timers_are_read(int descriptor)
{
	struct quiet quiet;
	if (!device || !is_timer(descriptor))
		return 0;
	descriptors_enter(&quiet);
	const struct timer *t = find(descriptor);
	int is_here = t && t->is_set_here;
	descriptors_leave(&quiet);
	return is_here;
}

ssize_t timers_read(int descriptor, void *to, size_t bytes)
{
	struct pollfd asked = { descriptor, POLLIN, 0 };
	uint64_t count;
	if (bytes < sizeof count)
		return -EINVAL;
	while (!(count = take_count(descriptor))) {
		if (REAL(fcntl)(descriptor, F_GETFL) & O_NONBLOCK)
			return -EAGAIN;
		if (polls_wait(&asked, 1, -1) < 0)
			return -errno;
	}
	device_enter();
	int error = copy_out(to, &count, sizeof count);
	device_leave();
	return error ? error : (ssize_t)sizeof count;
}

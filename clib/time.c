/*
 * The board's time, and the client's. They stand still but for these: each call takes ZENDROUZ_CALL_NS nanoseconds
 * (1,000), and a wait takes as long as it says and returns at once. So nothing depends on the machine, and a program that
 * sleeps too long loses its sample at the same place in each run. The board's time ends at the horizon of its signals, and
 * the client's goes on: its clocks show it.
 *
 * With ZENDROUZ_CLOCK=system the clocks are the system's, and only sleeps and waits for the board take board time. With
 * ZENDROUZ_PACE=F the board's time is F times the wall clock since the board was opened, and all waits are real. That is
 * for demonstrations: it repeats nothing.
 */
#define _GNU_SOURCE
#include "device.h"
#include "names.h"
#include "server.h"
#include <errno.h>
#include <stdatomic.h>
#include <stdio.h>
#include <stdlib.h>
#include <string.h>
#include <time.h>

#define HOUR 3600000000000

/* what the thread's last look at a clock showed, and the one before it */
static __thread uint64_t last_look = NEVER, look_before = NEVER;

uint64_t time_of_wall(void)
{
	struct timespec t;
	REAL(clock_gettime)(CLOCK_MONOTONIC, &t);
	return t.tv_sec * 1000000000ull + t.tv_nsec;
}

static uint64_t paced_time(void)
{
	return (time_of_wall() - device->wall_start) * device->pace;
}

/* Begins the time, by the settings that were read. */
void time_start(void)
{
	device->wall_start = time_of_wall();
	clocks_start();
	device->has_begun = 1;
}

/* Says once that the client has come to the end of the signals: its time was cut there, or a command ran dry. */
void time_say_end(void)
{
	static int is_said;
	char fraction[16];
	if (is_said)
		return;
	is_said = 1;
	int length = snprintf(fraction, sizeof fraction, ".%09u", (unsigned)(device->horizon % 1000000000));
	while (length && (fraction[length - 1] == '0' || fraction[length - 1] == '.'))
		fraction[--length] = 0;
	message("the signals of %s end at %llu%s s of board time: from here on nothing changes", device->path,
		(unsigned long long)device->horizon / 1000000000, fraction);
}

/* No time ever falls, and the board's stands still at the horizon. */
void time_to(uint64_t time)
{
	if (time > device->horizon)
		time_say_end();
	if (time <= device->client_now)
		return;
	atomic_store_explicit(&device->client_now, time, memory_order_relaxed);
	atomic_store_explicit(&device->now, time < device->horizon ? time : device->horizon, memory_order_relaxed);
}

/* With a pace, lets the board's time catch up with the wall clock. */
void time_catch_up(void)
{
	if (device->pace > 0)
		time_to(paced_time());
}

/* Returns how many nanoseconds of the wall clock are left up to a time of the board with a pace, and at most an hour. */
uint64_t time_left(uint64_t end)
{
	uint64_t now = paced_time();
	double left = end > now ? (end - now) / device->pace + 1 : 0;
	return left < HOUR ? left : HOUR;
}

/* The thread is busy for so long: nobody else has a turn meanwhile. */
void time_spend(uint64_t nanoseconds)
{
	uint64_t end = device->client_now + nanoseconds;
	if (device->pace <= 0)
		time_to(end);
	while (device->client_now < end)
		if (time_wait(end) < 0)
			break;
}

/* A call starts. */
void time_call(void)
{
	time_to(device->pace > 0 ? paced_time() : device->client_now + device->call_time);
}

/* Waits for nothing but an end. With a mask, lets signals in and looks for them even if no time is left. */
static int pause_sleep(void *what, uint64_t nanoseconds, const sigset_t *signals)
{
	struct timespec t = { nanoseconds / 1000000000, nanoseconds % 1000000000 };
	(void)what;
	return (nanoseconds || signals) && REAL(ppoll)(NULL, 0, &t, signals) ? -EINTR : 0;
}

const struct wait time_sleep = { .pause = pause_sleep };

/* Waits for the board until a time, within a call. Returns 0, or BOARD_CHANGED if another call has changed what comes, or
 * -EINTR if a signal has come. */
int time_wait(uint64_t time)
{
	struct wait wait = time_sleep;
	uint64_t seen = device_changes();
	wait.seen = &seen;
	if (device->pace <= 0 && turns_is_alone()) {
		time_to(time);
		return 0;
	}
	device_leave();
	int result = turns_wait(time, &wait);
	device_enter();
	time_catch_up();
	return result;
}

/* Whether sleeps of the client take board time: a board was opened, and waits aren't real. */
int time_is_board_time(void)
{
	return device && device->has_begun && device->pace <= 0;
}

/* Whether all that the client sees of the time is the board's. */
int time_is_shown(void)
{
	return time_is_board_time() && device->shows_time;
}

/* The client's time, as a clock shows it to a thread. A thread that looks again and again gets on: where nothing took time
 * since its last look, this one takes a call's time. */
uint64_t time_look(void)
{
	device_enter();
	if (device->client_now == last_look)
		time_to(device->client_now + device->call_time);
	uint64_t time = device->client_now;
	look_before = last_look;
	last_look = time;
	device_leave();
	return time;
}

/* The last look wasn't the client's own. */
void time_forget_look(void)
{
	last_look = look_before;
}

/* The client's time after so long, or NEVER where there is no end. */
uint64_t time_after(int64_t nanoseconds)
{
	return nanoseconds < 0 ? NEVER : device->client_now + nanoseconds;
}

/* Returns how many nanoseconds of the client's time are left up to a time. Another thread may let it pass meanwhile. */
uint64_t time_until(uint64_t end)
{
	uint64_t now = device->client_now;
	return end > now ? end - now : 0;
}

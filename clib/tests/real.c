/*
 * With ZENDROUZ_CLOCK=system and with ZENDROUZ_PACE the clock is the system's, and waits for what isn't the board's are
 * real. A system call made directly shows the system's clock.
 */
#define _GNU_SOURCE
#include "client.h"
#include <poll.h>
#include <semaphore.h>
#include <stdint.h>
#include <sys/select.h>
#include <sys/syscall.h>
#include <sys/timerfd.h>
#include <time.h>

static long nanoseconds_of(const struct timespec *time)
{
	return time->tv_sec * 1000000000 + time->tv_nsec;
}

static long wall(void)
{
	struct timespec time;
	syscall(SYS_clock_gettime, CLOCK_MONOTONIC, &time);
	return nanoseconds_of(&time);
}

static void report_since(long start, const char *what, long result)
{
	printf("%s, ", wall() - start >= 10 * MILLISECOND ? "10 ms and more" : "too early");
	report(what, result);
}

int main(void)
{
	comedi_t *device = open_board();
	int ends[2], timer = timerfd_create(CLOCK_MONOTONIC, 0);
	const struct itimerspec in_10_ms = { .it_value.tv_nsec = 10 * MILLISECOND };
	struct timespec time;
	struct timeval left = { 0, 10000 };
	uint64_t count;
	sem_t semaphore;
	fd_set reads;
	sem_init(&semaphore, 0, 0);
	if (pipe(ends))
		return 1;
	struct pollfd asked = { ends[0], POLLIN, 0 };
	long start = wall();
	clock_gettime(CLOCK_MONOTONIC, &time);
	printf("the clock is the %s\n", start <= nanoseconds_of(&time) && nanoseconds_of(&time) <= wall() ? "system's" : "board's");
	start = wall();
	report_since(start, "poll", poll(&asked, 1, 10));
	FD_ZERO(&reads);
	FD_SET(ends[0], &reads);
	start = wall();
	report_since(start, "select", select(ends[0] + 1, &reads, NULL, NULL, &left));
	start = wall();
	clock_gettime(CLOCK_MONOTONIC, &time);
	time.tv_nsec += 10 * MILLISECOND;
	time.tv_sec += time.tv_nsec / 1000000000;
	time.tv_nsec %= 1000000000;
	report_since(start, "sem_clockwait", sem_clockwait(&semaphore, CLOCK_MONOTONIC, &time));
	start = wall();
	timerfd_settime(timer, 0, &in_10_ms, NULL);
	report_since(start, "a timer", read(timer, &count, sizeof count));
	comedi_close(device);
	return 0;
}

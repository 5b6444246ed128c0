/*
 * Threads that make descriptors at once. Each makes timers, which are due after a microsecond, and sets of its own that have
 * the board, and closes them: every timer is read, and no set reports another one's members.
 */
#include "client.h"
#include <pthread.h>
#include <stdint.h>
#include <sys/epoll.h>
#include <sys/timerfd.h>

#define THREADS 4
#define TURNS 400

static comedi_t *device;
static long wrong[THREADS];

static int reads_timer(void)
{
	const struct itimerspec soon = { .it_value.tv_nsec = 1000 };
	uint64_t count = 0;
	int timer = timerfd_create(CLOCK_MONOTONIC, 0);
	timerfd_settime(timer, 0, &soon, NULL);
	int is_right = read(timer, &count, sizeof count) == sizeof count && count == 1;
	close(timer);
	return is_right;
}

/* The board is idle, so it is ready. */
static int has_board(void)
{
	struct epoll_event event = { .events = EPOLLIN, .data.fd = 5 };
	int set = epoll_create1(0), board = comedi_fileno(device);
	int is_right = !epoll_ctl(set, EPOLL_CTL_ADD, board, &event) && epoll_ctl(set, EPOLL_CTL_ADD, board, &event) < 0;
	is_right = is_right && epoll_wait(set, &event, 1, 0) == 1 && event.data.fd == 5;
	is_right = is_right && !epoll_ctl(set, EPOLL_CTL_DEL, board, NULL) && epoll_wait(set, &event, 1, 0) == 0;
	close(set);
	return is_right;
}

static void *make_some(void *argument)
{
	long *count = argument;
	for (int i = 0; i < TURNS; i++)
		*count += !reads_timer() + !has_board();
	return NULL;
}

int main(void)
{
	pthread_t threads[THREADS];
	long sum = 0;
	device = open_board();
	for (int i = 0; i < THREADS; i++)
		pthread_create(threads + i, NULL, make_some, wrong + i);
	for (int i = 0; i < THREADS; i++) {
		pthread_join(threads[i], NULL);
		sum += wrong[i];
	}
	printf("%d timers and sets, %ld wrong\n", THREADS * TURNS, sum);
	comedi_close(device);
	return 0;
}

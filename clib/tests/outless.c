/*
 * A poll for room, of a board that has no output, and of a pipe. The board is never ready, so the poll waits for the byte that a
 * child writes after 50 ms of the wall clock.
 */
#define _GNU_SOURCE
#include "client.h"
#include <poll.h>
#include <sys/epoll.h>
#include <sys/syscall.h>
#include <sys/wait.h>
#include <time.h>

static int ends[2];

static void write_later(void)
{
	const struct timespec time = { 0, 50 * MILLISECOND };
	fflush(stdout);
	if (!fork()) {
		syscall(SYS_nanosleep, &time, NULL);
		_exit(write(ends[1], "x", 1) != 1);
	}
}

int main(void)
{
	comedi_t *device = open_board();
	struct epoll_event event = { .events = EPOLLOUT, .data.u32 = 1 };
	int set = epoll_create1(0);
	char byte;
	if (pipe(ends))
		return 1;
	struct pollfd asked[2] = { { comedi_fileno(device), POLLOUT, 0 }, { ends[0], POLLIN, 0 } };
	write_later();
	int ready = poll(asked, 2, -1);
	printf("poll: %d, the board %d, the pipe %d\n", ready, asked[0].revents, asked[1].revents);
	report("read", read(ends[0], &byte, 1));
	epoll_ctl(set, EPOLL_CTL_ADD, comedi_fileno(device), &event);
	event = (struct epoll_event){ .events = EPOLLIN, .data.u32 = 2 };
	epoll_ctl(set, EPOLL_CTL_ADD, ends[0], &event);
	write_later();
	ready = epoll_wait(set, &event, 1, -1);
	printf("epoll_wait: %d, member %u\n", ready, event.data.u32);
	while (wait(NULL) > 0)
		;
	comedi_close(device);
	return 0;
}

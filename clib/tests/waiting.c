/*
 * Waits for several descriptors. On wide.board sample k comes at 3,000 + k * 1,000,000 ns and has the code k.
 *
 * Sample 0 is there at once. Then nothing is, up to 1,003,000: a poll of no time and a select of 500 us come back without
 * anything, and a select that waits with sample 1. A set of the device and a pipe has the device with sample 2, and both
 * once there is a byte in the pipe. After the third sample the command has ended: there is something to read, the end.
 * A ppoll whose mask lets in a signal that waits is ended by it.
 */
#define _GNU_SOURCE
#include "client.h"
#include <poll.h>
#include <signal.h>
#include <sys/epoll.h>
#include <sys/select.h>

static void note(int number)
{
	(void)number;
}

static void report_set(int set, int milliseconds)
{
	struct epoll_event events[4];
	int count = epoll_wait(set, events, 4, milliseconds);
	report("set", count);
	for (int i = 0; i < count; i++)
		printf("    member %d%s\n", events[i].data.fd, events[i].events & EPOLLIN ? " can be read" : "");
}

static void add(int set, int descriptor, int number)
{
	struct epoll_event event = { .events = EPOLLIN, .data.fd = number };
	report("add", epoll_ctl(set, EPOLL_CTL_ADD, descriptor, &event));
}

int main(void)
{
	comedi_t *device = open_board();
	int descriptor = comedi_fileno(device), ends[2], set = epoll_create1(0);
	struct pollfd asked = { descriptor, POLLIN, 0 };
	struct timeval time = { 0, 500 };
	sigset_t none, user;
	fd_set reads;
	if (pipe(ends) || report("command", give_command(device, 0, TRIG_NOW, MILLISECOND, 3)))
		return 1;
	report("poll", poll(&asked, 1, -1));
	read_and_print(device, 8);
	report("poll of no time", poll(&asked, 1, 0));
	FD_ZERO(&reads);
	FD_SET(descriptor, &reads);
	report("select of 500 us", select(descriptor + 1, &reads, NULL, NULL, &time));
	FD_SET(descriptor, &reads);
	report("select", select(descriptor + 1, &reads, NULL, NULL, NULL));
	read_and_print(device, 8);
	add(set, descriptor, 1);
	add(set, ends[0], 2);
	report_set(set, -1);
	if (write(ends[1], "x", 1) == 1)
		report_set(set, 0);
	read_and_print(device, 8);
	report_set(set, 10);
	read_and_print(device, 8);
	signal(SIGUSR1, note);
	sigemptyset(&none);
	sigemptyset(&user);
	sigaddset(&user, SIGUSR1);
	sigprocmask(SIG_BLOCK, &user, NULL);
	raise(SIGUSR1);
	report("ppoll", ppoll(&asked, 1, NULL, &none));
	comedi_close(device);
	return 0;
}

/*
 * Waits in the time of the wall clock. With ZENDROUZ_PACE=0.5 a sample comes every 2 s on wide.board. A child writes a byte to a
 * pipe after 50 ms, which ends a poll of both at once. A read is ended by the signal that comes with the next sample.
 */
#define _GNU_SOURCE
#include "client.h"
#include <fcntl.h>
#include <poll.h>
#include <signal.h>
#include <sys/syscall.h>
#include <sys/wait.h>
#include <time.h>

static double seconds(void)
{
	struct timespec time;
	syscall(SYS_clock_gettime, CLOCK_MONOTONIC, &time);
	return time.tv_sec + time.tv_nsec / 1e9;
}

/* Which samples come depends on the machine, so only their bytes are counted. */
static long read_one(comedi_t *device)
{
	sampl_t sample;
	return read(comedi_fileno(device), &sample, sizeof sample);
}

static void note(int number)
{
	(void)number;
}

static void poll_both(comedi_t *device)
{
	struct pollfd asked[2] = { { comedi_fileno(device), POLLIN, 0 }, { .events = POLLIN } };
	int ends[2];
	if (pipe(ends))
		return;
	asked[1].fd = ends[0];
	double start = seconds();
	if (!fork()) {
		const struct timespec time = { 0, 50 * MILLISECOND };
		syscall(SYS_nanosleep, &time, NULL);
		_exit(write(ends[1], "x", 1) != 1);
	}
	int ready = poll(asked, 2, 5000);
	double took = seconds() - start;
	wait(NULL);
	printf("poll: %d, the board %d, the pipe %d, %s\n", ready, asked[0].revents, asked[1].revents, took < 1.5 ? "at once" : "too late");
}

static void wait_for_signal(comedi_t *device)
{
	struct sigaction action = { .sa_handler = note };
	sigaction(SIGIO, &action, NULL);
	fcntl(comedi_fileno(device), F_SETOWN, getpid());
	fcntl(comedi_fileno(device), F_SETFL, fcntl(comedi_fileno(device), F_GETFL) | O_ASYNC);
	report("a read", read_one(device));
	report("a read", read_one(device));
}

int main(void)
{
	comedi_t *device = open_board();
	if (report("command", give_command(device, 0, TRIG_NOW, 1000 * MILLISECOND, 0)))
		return 1;
	report("a read", read_one(device));
	poll_both(device);
	wait_for_signal(device);
	comedi_close(device);
	return 0;
}

/*
 * A thread that waits for the board is woken by what another one does: a trigger, a cancel, a signal. Each
 * waits from 0 on, and the other one acts after 3 ms; what comes after that is reported with the milliseconds.
 *
 * On wide.board a command of the input may start by a trigger, and the output has room for 8 words. A scan takes 1 ms, and
 * the first one is at the trigger itself. A read that waits is answered with all that it asked for. A write of two words
 * to a full output finds room for both when the second word goes out.
 */
#define _GNU_SOURCE
#include "client.h"
#include <fcntl.h>
#include <poll.h>
#include <pthread.h>
#include <signal.h>
#include <sys/epoll.h>
#include <sys/select.h>
#include <time.h>

#define SIGNALS 40

static comedi_t *device;
static int descriptor;
static pthread_t waiter;
static long start, took, result;
static int error;

static long microseconds(void)
{
	struct timespec time;
	clock_gettime(CLOCK_MONOTONIC, &time);
	return time.tv_sec * 1000000 + time.tv_nsec / 1000;
}

/* What is waited for: an input and an output that wait for a trigger, and an input whose next sample comes late. */
static void arm_input(void)
{
	give_command(device, 0, TRIG_INT, MILLISECOND, 100);
}

static void arm_output(void)
{
	static const sampl_t words[8];
	give_command(device, 1, TRIG_INT, MILLISECOND, 0);
	if (write(descriptor, words, sizeof words) != sizeof words)
		perror("write");
}

static void run_slowly(void)
{
	sampl_t sample;
	give_command(device, 0, TRIG_NOW, 500 * MILLISECOND, 10);
	if (read(descriptor, &sample, sizeof sample) != sizeof sample)
		perror("read");
}

/* Waits. */
static long read_one(void)
{
	sampl_t sample;
	return read(descriptor, &sample, sizeof sample);
}

static long read_eight(void)
{
	sampl_t samples[8];
	return read(descriptor, samples, sizeof samples);
}

static long write_two(void)
{
	static const sampl_t words[2];
	return write(descriptor, words, sizeof words);
}

static long poll_for(short events, int milliseconds)
{
	struct pollfd asked = { descriptor, events, 0 };
	return poll(&asked, 1, milliseconds);
}

static long poll_input(void)
{
	return poll_for(POLLIN, -1);
}

static long poll_shortly(void)
{
	return poll_for(POLLIN, 500);
}

static long poll_output(void)
{
	return poll_for(POLLOUT, -1);
}

static long select_input(void)
{
	struct timeval time = { 3, 0 };
	fd_set reads;
	FD_ZERO(&reads);
	FD_SET(descriptor, &reads);
	return select(descriptor + 1, &reads, NULL, NULL, &time);
}

static long wait_for_set(void)
{
	struct epoll_event event = { .events = EPOLLIN };
	int set = epoll_create1(0);
	epoll_ctl(set, EPOLL_CTL_ADD, descriptor, &event);
	long ready = epoll_wait(set, &event, 1, 3000);
	close(set);
	return ready;
}

/* What ends them. */
static void trigger_input(void)
{
	comedi_internal_trigger(device, 0, 0);
}

static void trigger_output(void)
{
	comedi_internal_trigger(device, 1, 0);
}

static void cancel_input(void)
{
	comedi_cancel(device, 0);
}

static void cancel_output(void)
{
	comedi_cancel(device, 1);
}

static void send_signal(void)
{
	pthread_kill(waiter, SIGUSR1);
}

static void *run_wait(void *wait)
{
	errno = 0;
	result = (*(long (**)(void))wait)();
	error = errno;
	took = microseconds() - start;
	return NULL;
}

static void wait_and_act(void (*prepare)(void), long (*wait)(void), void (*act)(void))
{
	prepare();
	start = microseconds();
	pthread_create(&waiter, NULL, run_wait, &wait);
	usleep(3000);
	act();
	usleep(50000);
	pthread_join(waiter, NULL);
	comedi_cancel(device, 0);
	comedi_cancel(device, 1);
}

static void run(const char *name, void (*prepare)(void), long (*wait)(void), void (*act)(void))
{
	wait_and_act(prepare, wait, act);
	printf("%3ld ms  %s: %ld%s%s\n", took / 1000, name, result, result < 0 ? " " : "", result < 0 ? strerror(error) : "");
}

static void note(int number)
{
	(void)number;
}

static void handle_signals(int flags)
{
	struct sigaction action = { .sa_handler = note, .sa_flags = flags };
	sigaction(SIGUSR1, &action, NULL);
}

/* Signals that come at any moment of a wait. */
static void send_signals(void)
{
	static long (*const waits[])(void) = { read_eight, select_input, poll_shortly };
	int ended = 0;
	for (int i = 0; i < SIGNALS; i++) {
		wait_and_act(run_slowly, waits[i % 3], send_signal);
		ended += result < 0 && error == EINTR && took < 4000;
	}
	printf("%d of %d waits were ended by a signal\n", ended, SIGNALS);
}

int main(void)
{
	device = open_board();
	descriptor = comedi_fileno(device);
	run("read, a trigger", arm_input, read_one, trigger_input);
	run("read of eight, a trigger", arm_input, read_eight, trigger_input);
	run("read, a cancel", arm_input, read_one, cancel_input);
	run("read of eight, a cancel", run_slowly, read_eight, cancel_input);
	run("poll, a trigger", arm_input, poll_input, trigger_input);
	run("poll, a cancel", arm_input, poll_input, cancel_input);
	run("poll of 500 ms, a trigger", arm_input, poll_shortly, trigger_input);
	run("select, a trigger", arm_input, select_input, trigger_input);
	run("select, a cancel", run_slowly, select_input, cancel_input);
	run("epoll_wait, a cancel", run_slowly, wait_for_set, cancel_input);
	run("write, a trigger", arm_output, write_two, trigger_output);
	run("write, a cancel", arm_output, write_two, cancel_output);
	run("poll of an output, a trigger", arm_output, poll_output, trigger_output);
	run("poll of an output, a cancel", arm_output, poll_output, cancel_output);
	handle_signals(0);
	run("read, a signal", run_slowly, read_one, send_signal);
	run("poll, a signal", run_slowly, poll_input, send_signal);
	send_signals();
	handle_signals(SA_RESTART);
	run("read, a signal that restarts it", run_slowly, read_one, send_signal);
	comedi_close(device);
	return 0;
}

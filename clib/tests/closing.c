/*
 * A descriptor that another thread closes during a call. As in the kernel the file stays open up to the end of the call: a read
 * gets its samples, and the command and the lock are the file's meanwhile. Then they are free.
 *
 * On wide.board scans of 500 ms have one sample each. A thread calls, and the first one closes the descriptor after 3 ms.
 */
#define _GNU_SOURCE
#include "client.h"
#include <poll.h>
#include <pthread.h>
#include <sys/ioctl.h>
#include <time.h>

static comedi_t *other;
static int descriptor;
static pthread_t caller;
static long start, took, result;
static int error;

static long milliseconds(void)
{
	struct timespec time;
	clock_gettime(CLOCK_MONOTONIC, &time);
	return time.tv_sec * 1000 + time.tv_nsec / 1000000;
}

static long read_one(void)
{
	sampl_t sample;
	return read(descriptor, &sample, sizeof sample);
}

static long write_two(void)
{
	static const sampl_t words[2];
	return write(descriptor, words, sizeof words);
}

/* What is closed meanwhile isn't there when the kernel looks again. */
static long poll_one(void)
{
	struct pollfd asked = { descriptor, POLLIN, 0 };
	long ready = poll(&asked, 1, 3000);
	return ready == 1 && asked.revents == POLLNVAL ? POLLNVAL : ready;
}

static void *call(void *what)
{
	result = (*(long (**)(void))what)();
	error = errno;
	took = milliseconds() - start;
	return NULL;
}

static void report_other(const char *when)
{
	printf("%s, another one's ", when);
	report("lock", comedi_lock(other, 2));
	comedi_unlock(other, 2);
	printf("%s, another one's ", when);
	report("command", give_command(other, 0, TRIG_INT, MILLISECOND, 1));
	comedi_cancel(other, 0);
}

/* Opens a file that has a lock, an input that runs and an output that is full, and calls beside. */
static void start_call(long (**what)(void))
{
	static const sampl_t words[8];
	comedi_t *device = open_board();
	descriptor = comedi_fileno(device);
	comedi_lock(device, 2);
	give_command(device, 0, TRIG_NOW, 500 * MILLISECOND, 0);
	give_command(device, 1, TRIG_INT, MILLISECOND, 0);
	if (write(descriptor, words, sizeof words) != sizeof words)
		perror("write");
	read_and_print(device, 1);
	start = milliseconds();
	pthread_create(&caller, NULL, call, what);
	usleep(3000);
	report("close", close(descriptor));
	report("a read of what is closed", read_one());
}

static void end_call(const char *name)
{
	pthread_join(caller, NULL);
	printf("%s: %ld%s%s, after %ld ms\n", name, result, result < 0 ? " " : "", result < 0 ? strerror(error) : "", took);
	report_other("after it");
}

static void close_during(const char *name, long (*what)(void))
{
	start_call(&what);
	report_other("meanwhile");
	end_call(name);
}

static void trigger_during(void)
{
	long (*what)(void) = write_two;
	start_call(&what);
	comedi_internal_trigger(other, 1, 0);
	end_call("a write");
}

static void cancel_thread(void)
{
	long (*what)(void) = read_one;
	start_call(&what);
	pthread_cancel(caller);
	pthread_join(caller, NULL);
	report_other("after a thread that was cancelled");
}

int main(void)
{
	other = open_board();
	close_during("a read", read_one);
	close_during("a poll", poll_one);
	trigger_during();
	cancel_thread();
	comedi_close(other);
	return 0;
}

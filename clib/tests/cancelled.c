/*
 * Threads that are cancelled while they read: each of them ends, also one whose reads never wait, and the board goes on for
 * the others.
 *
 * On wide.board a sample comes every 10 us, and channel 1 of the input has the code 7. Each thread says by a byte in a pipe
 * that it reads, and is cancelled then, wherever it is. The last one waits for a sample that comes after a second, and is
 * cancelled after a millisecond: the board's time doesn't go on to that sample.
 */
#include "client.h"
#include <pthread.h>
#include <time.h>

#define THREADS 30

static comedi_t *device;
static int ends[2];

static void *read_on(void *bytes)
{
	static sampl_t samples[64];
	for (int reads = 0; read(comedi_fileno(device), samples, *(size_t *)bytes) >= 0; reads++)
		if (reads == 5 && write(ends[1], "x", 1) != 1)
			break;
	return NULL;
}

/* Cancels a thread that reads so many bytes again and again. Answers whether it ended so and the board goes on. */
static int cancel_one(size_t bytes)
{
	pthread_t thread;
	void *end = NULL;
	char byte;
	lsampl_t code = 0;
	if (give_command(device, 0, TRIG_NOW, 10000, 0) || pthread_create(&thread, NULL, read_on, &bytes))
		return 0;
	int reads = read(ends[0], &byte, 1) == 1;
	pthread_cancel(thread);
	pthread_join(thread, &end);
	int goes_on = comedi_cancel(device, 0) >= 0 && comedi_data_read(device, 0, 1, 0, AREF_GROUND, &code) == 1;
	return reads && end == PTHREAD_CANCELED && goes_on && code == 7;
}

static void *wait_for_second(void *argument)
{
	sampl_t sample;
	for (int i = 0; i < 2; i++)
		if (read(comedi_fileno(device), &sample, sizeof sample) < 0)
			break;
	return argument;
}

static long microseconds(void)
{
	struct timespec time;
	clock_gettime(CLOCK_MONOTONIC, &time);
	return time.tv_sec * 1000000 + time.tv_nsec / 1000;
}

static void cancel_waiting(void)
{
	pthread_t thread;
	void *end = NULL;
	report("command", give_command(device, 0, TRIG_NOW, 1000 * MILLISECOND, 0));
	long start = microseconds();
	pthread_create(&thread, NULL, wait_for_second, NULL);
	usleep(1000);
	pthread_cancel(thread);
	pthread_join(thread, &end);
	printf("one that waited: %s after %ld ms\n", end == PTHREAD_CANCELED ? "cancelled" : "not cancelled", (microseconds() - start) / 1000);
	report("cancel", comedi_cancel(device, 0));
}

int main(void)
{
	device = open_board();
	int right = 0;
	if (pipe(ends))
		return 1;
	for (int i = 0; i < THREADS; i++)
		right += cancel_one(i % 3 ? 2 : 128);
	for (int i = 0; i < THREADS; i++)
		right += cancel_one(0);
	printf("%d threads were cancelled, and the board goes on\n", right);
	cancel_waiting();
	comedi_close(device);
	return 0;
}

/*
 * An acquisition of two threads: one reads until the command has ended, and the other gives the trigger and looks after it,
 * by a poll of a pipe every 50 ms. Or it looks at its watch and cancels a command that never starts: `pair watch`.
 *
 * On wide.board the code of a sample is its millisecond modulo 255, and the samples come every 100 us: 4,000 of them in 400 ms.
 */
#include "client.h"
#include <poll.h>
#include <pthread.h>
#include <time.h>

#define SAMPLES 4000

static comedi_t *device;
static int ends[2];
static long samples, reads, last;
static int error;

static void *read_all(void *argument)
{
	sampl_t some[256];
	ssize_t got;
	while ((got = read(comedi_fileno(device), some, sizeof some)) > 0) {
		samples += got / (ssize_t)sizeof *some;
		reads++;
	}
	last = got;
	error = errno;
	if (write(ends[1], "x", 1) != 1)
		return NULL;
	return argument;
}

static long milliseconds(void)
{
	struct timespec time;
	clock_gettime(CLOCK_MONOTONIC, &time);
	return time.tv_sec * 1000 + time.tv_nsec / MILLISECOND;
}

int main(int argc, char **argv)
{
	int watches = argc > 1 && !strcmp(argv[1], "watch"), looks = 0;
	pthread_t reader;
	device = open_board();
	if (pipe(ends) || report("command", give_command(device, 0, TRIG_INT, 100000, SAMPLES)))
		return 1;
	long start = milliseconds();
	pthread_create(&reader, NULL, read_all, NULL);
	usleep(watches ? 2000000 : 1000);
	report(watches ? "cancel" : "trigger", watches ? comedi_cancel(device, 0) : comedi_internal_trigger(device, 0, 0));
	for (struct pollfd asked = { ends[0], POLLIN, 0 }; poll(&asked, 1, 50) == 0; looks++)
		;
	pthread_join(reader, NULL);
	errno = error;
	report("the last read", last);
	printf("%ld samples in %ld reads, %d looks, %ld ms\n", samples, reads, looks, milliseconds() - start);
	comedi_close(device);
	return 0;
}

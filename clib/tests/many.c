/*
 * How fast samples are read: `many BYTES COUNT`.
 *
 * On wide.board sample k comes at 3,000 + k * 10,000 ns, so 100 of them have the same code. 25,500 samples have the
 * codes 0 to 254, and their sum is 100 * 254 * 255 / 2 = 3,238,500. The speed goes to standard error: it is of
 * the wall clock with ZENDROUZ_CLOCK=system.
 */
#include "client.h"
#include <time.h>

static double seconds(void)
{
	struct timespec t;
	clock_gettime(CLOCK_MONOTONIC, &t);
	return t.tv_sec + t.tv_nsec / 1e9;
}

int main(int argc, char **argv)
{
	size_t bytes = argc > 1 ? strtoul(argv[1], NULL, 10) : 4096, total = 0, reads = 0;
	unsigned count = argc > 2 ? strtoul(argv[2], NULL, 10) : 25500;
	unsigned long sum = 0;
	sampl_t *samples = malloc(bytes);
	ssize_t got;
	comedi_t *device = open_board();
	if (report("command", give_command(device, 0, TRIG_NOW, 10000, count)))
		return 1;
	double began = seconds();
	while ((got = read(comedi_fileno(device), samples, bytes)) > 0) {
		for (size_t i = 0; i < got / sizeof *samples; i++)
			sum += samples[i];
		total += got / sizeof *samples;
		reads++;
	}
	double took = seconds() - began;
	report("the last read", got);
	printf("%zu samples, sum %lu\n", total, sum);
	fprintf(stderr, "%zu reads, %.0f samples a second\n", reads, total / took);
	comedi_close(device);
	return 0;
}

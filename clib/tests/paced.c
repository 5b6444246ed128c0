/*
 * A run whose waits are real: with ZENDROUZ_PACE=10 the last of 51 samples, a millisecond apart, comes after 5 ms of the
 * wall clock. How many a read finds depends on the machine, and so does the first code, which is the millisecond of the
 * command. So what is reported is how many there are, and the sum of what each is above the first: 0 + 1 + .. + 50 = 1,275.
 */
#include "client.h"
#include <time.h>

int main(void)
{
	struct timespec began, ended;
	comedi_t *device = open_board();
	sampl_t samples[64];
	int total = 0, sum = 0, first = 0;
	clock_gettime(CLOCK_MONOTONIC, &began);
	if (report("command", give_command(device, 0, TRIG_NOW, MILLISECOND, 51)))
		return 1;
	for (ssize_t bytes; (bytes = read(comedi_fileno(device), samples, sizeof samples)) > 0;)
		for (size_t i = 0; i < bytes / sizeof *samples; i++, total++) {
			first = total ? first : samples[i];
			sum += (samples[i] - first + 255) % 255;
		}
	clock_gettime(CLOCK_MONOTONIC, &ended);
	long microseconds = (ended.tv_sec - began.tv_sec) * 1000000 + (ended.tv_nsec - began.tv_nsec) / 1000;
	printf("%d samples, sum %d, %s\n", total, sum, microseconds >= 5000 ? "5 ms and more" : "too early");
	comedi_close(device);
	return 0;
}

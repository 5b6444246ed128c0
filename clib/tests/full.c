/*
 * Reads that wait for more than 65,536 samples: one comes back with all that it asked for, or with half a buffer where that
 * is less.
 *
 * On large.board, with a sample each 10,000 ns and a buffer of 262,144: the first read finds the first sample, and each of
 * the others comes before the next one.
 */
#include "client.h"

static sampl_t samples[200000];

static void read_up_to(int descriptor, size_t count)
{
	ssize_t bytes = read(descriptor, samples, count * sizeof *samples);
	report("read", bytes < 0 ? bytes : bytes / (ssize_t)sizeof *samples);
}

int main(void)
{
	comedi_t *device = open_board();
	int descriptor = comedi_fileno(device);
	if (report("command", give_command(device, 0, TRIG_NOW, 10000, 0)))
		return 1;
	read_up_to(descriptor, 100000);
	read_up_to(descriptor, 100000);
	read_up_to(descriptor, 200000);
	comedi_close(device);
	return 0;
}

/*
 * Reads that ask for more than there is, where a multiple of 4,096 samples is there and nothing comes after them: the end
 * is reported by the call after the one that took the last sample, as by the kernel.
 *
 * On wide.board, with a sample each 1,000 ns and a buffer of 32,768: 4,096 samples have come after 10 ms, and the command
 * is done. Of a command without an end the buffer is full after 32.768 ms, and the next sample is lost.
 */
#include "client.h"

static sampl_t samples[40000];

static int start(comedi_t *device, unsigned count)
{
	int failed = report("command", give_command(device, 0, TRIG_NOW, 1000, count));
	usleep(100000);
	return failed;
}

int main(void)
{
	comedi_t *device = open_board();
	int descriptor = comedi_fileno(device);
	if (start(device, 4096))
		return 1;
	report("read", read(descriptor, samples, 10000));
	report("read", read(descriptor, samples, 10000));
	if (start(device, 4096))
		return 1;
	report("mark", comedi_mark_buffer_read(device, 0, 10000));
	report("mark", comedi_mark_buffer_read(device, 0, 10000));
	if (start(device, 0))
		return 1;
	report("read", read(descriptor, samples, sizeof samples));
	report("read", read(descriptor, samples, sizeof samples));
	comedi_close(device);
	return 0;
}

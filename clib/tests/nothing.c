/*
 * Reads and writes of no bytes. Such a call reports an error, which makes the subdevice idle, and it reports no other end. While
 * samples are left after an overrun, the error is reported and the samples can still be read.
 *
 * On wide.board, with a sample every 1,000 ns and a buffer of 32,768, a command without an end loses a sample after 32.768 ms.
 */
#include "client.h"

static sampl_t samples[40000];
static comedi_t *device;
static int descriptor;
static void *volatile nowhere = (void *)8;

static void start(unsigned subdevice, unsigned source, unsigned count)
{
	report("command", give_command(device, subdevice, source, 1000, count));
}

static void read_overrun(void)
{
	start(0, TRIG_NOW, 0);
	report("nothing, while it runs", read(descriptor, samples, 0));
	usleep(100000);
	report("nothing, after the overrun", read(descriptor, samples, 0));
	report("samples", read(descriptor, samples, 6));
	report("nothing, while samples are left", read(descriptor, samples, 0));
	report("another command", give_command(device, 0, TRIG_NOW, 1000, 1));
	report("all samples", read(descriptor, samples, sizeof samples));
	report("nothing", read(descriptor, samples, 0));
	report("nothing again", read(descriptor, samples, 0));
}

static void read_to_the_end(void)
{
	start(0, TRIG_NOW, 4);
	usleep(10000);
	report("nothing, after a good end", read(descriptor, samples, 0));
	report("all samples", read(descriptor, samples, sizeof samples));
	report("nothing", read(descriptor, samples, 0));
	report("another command", give_command(device, 0, TRIG_NOW, 1000, 1));
	report("the end", read(descriptor, samples, 2));
	report("nothing again", read(descriptor, samples, 0));
}

static void write_underrun(void)
{
	start(1, TRIG_INT, 8);
	report("word", write(descriptor, samples, 2));
	report("nothing, while it waits", write(descriptor, samples, 0));
	comedi_internal_trigger(device, 1, 0);
	usleep(10000);
	report("nothing, after the underrun", write(descriptor, samples, 0));
	report("nothing again", write(descriptor, samples, 0));
}

static void write_to_the_end(void)
{
	start(1, TRIG_INT, 1);
	report("word", write(descriptor, samples, 2));
	comedi_internal_trigger(device, 1, 0);
	usleep(10000);
	report("nothing, after a good end", write(descriptor, samples, 0));
	report("from nowhere", write(descriptor, nowhere, 2));
	report("nothing again", write(descriptor, samples, 0));
}

int main(void)
{
	device = open_board();
	descriptor = comedi_fileno(device);
	read_overrun();
	read_to_the_end();
	write_underrun();
	write_to_the_end();
	comedi_close(device);
	return 0;
}

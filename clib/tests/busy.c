/*
 * A client that asks over and over, and mostly hears nothing new: values, reads without waiting, the buffer, and polls, with
 * sleeps and without. Its record stays small.
 *
 * On wide.board channel 1 has the code 7, and channel 0 the millisecond modulo 255. Each call takes 1,000 ns.
 */
#include "client.h"
#include <fcntl.h>
#include <poll.h>

#define VALUES 3000
#define SAMPLES 4
#define PERIOD (2 * MILLISECOND)
#define PAUSE 100

static comedi_t *device;
static int subdevice;

/* Asks for what is there. Returns whether something is. */
static int ask_buffer(void)
{
	return comedi_get_buffer_contents(device, subdevice) > 0;
}

static int ask_buffer_and_sleep(void)
{
	int is_there = ask_buffer();
	if (!is_there)
		usleep(PAUSE);
	return is_there;
}

static int ask_poll(void)
{
	struct pollfd asked = { comedi_fileno(device), POLLIN, 0 };
	return poll(&asked, 1, 0) > 0;
}

static int ask_all(void)
{
	return ask_poll() || ask_buffer_and_sleep();
}

/* Reads without waiting: nothing asks before. */
static int ask_nothing(void)
{
	return 1;
}

/* Takes the samples of a command, by asking until one is there. */
static void take(const char *name, int (*ask)(void))
{
	unsigned long asked = 0, empty = 0;
	sampl_t sample;
	report(name, give_command(device, subdevice, TRIG_NOW, PERIOD, SAMPLES));
	printf("read:");
	for (int taken = 0; taken < SAMPLES; asked++) {
		ssize_t got = ask() ? read(comedi_fileno(device), &sample, sizeof sample) : 0;
		empty += got < 0;
		taken += got > 0;
		if (got > 0)
			printf(" %u", sample);
	}
	printf("\n%lu times asked, %lu reads without a sample\n", asked, empty);
	report("the last read", read(comedi_fileno(device), &sample, sizeof sample));
}

int main(void)
{
	unsigned long sum = 0;
	lsampl_t code;
	device = open_board();
	fcntl(comedi_fileno(device), F_SETFL, O_NONBLOCK);
	for (int i = 0; i < VALUES; i++)
		sum += comedi_data_read(device, 0, 1, 0, AREF_GROUND, &code) == 1 ? code : 0;
	printf("the sum of %d values: %lu\n", VALUES, sum);
	take("reads", ask_nothing);
	take("the buffer", ask_buffer);
	take("the buffer and sleeps", ask_buffer_and_sleep);
	take("polls", ask_poll);
	take("all", ask_all);
	comedi_close(device);
	return 0;
}

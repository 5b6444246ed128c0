/* What the clients of the tests share. They are built against Debian's headers alone, and know of no model. */
#ifndef CLIENT_H
#define CLIENT_H

#include <comedilib.h>
#include <errno.h>
#include <stdio.h>
#include <stdlib.h>
#include <string.h>
#include <unistd.h>

#define MILLISECOND 1000000

/* Opens the device, or ends the client. */
static inline comedi_t *open_board(void)
{
	comedi_t *device = comedi_open("/dev/comedi0");
	setvbuf(stdout, NULL, _IOLBF, 0);
	if (device)
		return device;
	printf("open: %s\n", strerror(errno));
	exit(1);
}

/* A command on channel 0: a scan of one sample each period, `count` of them. */
static inline int give_command(comedi_t *device, unsigned subdevice, unsigned start, unsigned period, unsigned count)
{
	static unsigned list[1];
	comedi_cmd command;
	memset(&command, 0, sizeof command);
	list[0] = CR_PACK(0, 0, AREF_GROUND);
	command.subdev = subdevice;
	command.start_src = start;
	command.scan_begin_src = TRIG_TIMER;
	command.scan_begin_arg = period;
	command.convert_src = TRIG_NOW;
	command.scan_end_src = TRIG_COUNT;
	command.scan_end_arg = 1;
	command.stop_src = count ? TRIG_COUNT : TRIG_NONE;
	command.stop_arg = count;
	command.chanlist = list;
	command.chanlist_len = 1;
	return comedi_command(device, &command);
}

/* Prints a result, or the error of a call that failed. Answers 1 where it failed. */
static inline int report(const char *what, long result)
{
	if (result >= 0)
		printf("%s: %ld\n", what, result);
	else
		printf("%s: %s\n", what, strerror(errno));
	return result < 0;
}

/* Reads up to `most` samples of 16 bits, and prints them. Answers as read, in samples. */
static inline int read_and_print(comedi_t *device, unsigned most)
{
	sampl_t samples[4096];
	ssize_t bytes = read(comedi_fileno(device), samples, most * sizeof *samples);
	if (bytes < 0) {
		printf("read fails: %s\n", strerror(errno));
		return -1;
	}
	printf("read:");
	for (ssize_t i = 0; i < bytes / (ssize_t)sizeof *samples; i++)
		printf(" %u", samples[i]);
	printf("\n");
	return bytes / sizeof *samples;
}

#endif

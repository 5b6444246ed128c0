/*
 * A client whose program of answers ends in the middle (tests/dying does so): each call fails with EIO from then on, and
 * none waits.
 */
#include "client.h"
#include <poll.h>
#include <sys/mman.h>

static void report_call(const char *what, long result)
{
	printf("%s: %s\n", what, result >= 0 ? "done" : strerror(errno));
}

int main(void)
{
	comedi_t *device = open_board();
	int descriptor = comedi_fileno(device);
	struct pollfd asked = { descriptor, POLLIN, 0 };
	sampl_t sample[4] = { 0 };
	lsampl_t code;
	comedi_cmd command = { .subdev = 0 };
	report_call("command", give_command(device, 0, TRIG_NOW, MILLISECOND, 0));
	while (read(descriptor, sample, sizeof sample) > 0)
		;
	report_call("read", -1);
	report_call("read again", read(descriptor, sample, sizeof sample));
	report_call("write", write(descriptor, sample, sizeof sample));
	report_call("poll", poll(&asked, 1, -1));
	report_call("map", mmap(NULL, 4096, PROT_READ, MAP_SHARED, descriptor, 0) == MAP_FAILED ? -1 : 0);
	report_call("command", give_command(device, 0, TRIG_NOW, MILLISECOND, 0));
	report_call("test", comedi_command_test(device, &command));
	report_call("value", comedi_data_read(device, 0, 0, 0, AREF_GROUND, &code));
	report_call("lock", comedi_lock(device, 0));
	report_call("cancel", comedi_cancel(device, 0));
	report_call("contents", comedi_get_buffer_contents(device, 0));
	report_call("flags", comedi_get_subdevice_flags(device, 0));
	usleep(1000);
	comedi_close(device);
	return 0;
}

/*
 * An output by write: eight words of a buffer of eight, then four more while it runs.
 *
 * On wide.board a call takes 1,000 ns, and comedi_open makes two. The command is called at 3,000, eight words are written
 * at 4,000, the trigger is given at 5,000, and word k goes out at 5,000 + k * 1,000,000: the first at the trigger itself.
 * After a sleep of 2.5 ms, at 2,506,000, the words 0, 1 and 2 are out, so there is room for 3 of the next 4. A write that
 * doesn't wait finds none then. One that waits does so until 3,005,000, when word 3 is out.
 * The command has 12 scans and 12 words. So a write after 20 ms more reports a good end with 0, and the next is EINVAL.
 */
#include "client.h"
#include <fcntl.h>

static const sampl_t words[12] = { 10, 20, 30, 40, 50, 60, 70, 80, 90, 100, 110, 120 };

static ssize_t put(comedi_t *device, int from, int count)
{
	ssize_t bytes = write(comedi_fileno(device), words + from, count * sizeof *words);
	return bytes < 0 ? bytes : bytes / (ssize_t)sizeof *words;
}

int main(void)
{
	comedi_t *device = open_board();
	if (report("command", give_command(device, 1, TRIG_INT, MILLISECOND, 12)))
		return 1;
	report("write 8", put(device, 0, 8));
	report("trigger", comedi_internal_trigger(device, 1, 0));
	fcntl(comedi_fileno(device), F_SETFL, O_NONBLOCK);
	usleep(2500);
	report("write 4", put(device, 8, 4));
	report("write 1, not waiting", put(device, 11, 1));
	fcntl(comedi_fileno(device), F_SETFL, 0);
	report("write 1, waiting", put(device, 11, 1));
	usleep(20000);
	report("write after the end", put(device, 0, 1));
	report("write without a command", put(device, 0, 1));
	comedi_close(device);
	return 0;
}

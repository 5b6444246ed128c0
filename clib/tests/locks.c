/*
 * Two files and a lock, with the error numbers of the kernel's core: what the lock keeps others from is EACCES, what is
 * busy is EBUSY, what isn't one's own command EINVAL. A cancel doesn't look at the lock.
 */
#include "client.h"

static void report_call(const char *what, int result)
{
	printf("%s: %s\n", what, result >= 0 ? "done" : strerror(comedi_errno()));
}

int main(void)
{
	comedi_t *first = open_board(), *second = open_board();
	lsampl_t code;
	sampl_t sample;
	report_call("first locks", comedi_lock(first, 0));
	report_call("second locks", comedi_lock(second, 0));
	report_call("second unlocks", comedi_unlock(second, 0));
	report_call("second reads a value", comedi_data_read(second, 0, 1, 0, AREF_GROUND, &code));
	report_call("second gives a command", give_command(second, 0, TRIG_NOW, MILLISECOND, 4));
	report_call("second cancels", comedi_cancel(second, 0));
	report_call("first reads a value", comedi_data_read(first, 0, 1, 0, AREF_GROUND, &code));
	printf("the value is %u\n", code);
	report_call("first gives a command", give_command(first, 0, TRIG_NOW, MILLISECOND, 4));
	report_call("first unlocks", comedi_unlock(first, 0));
	report_call("second cancels", comedi_cancel(second, 0));
	report("second reads", read(comedi_fileno(second), &sample, sizeof sample));
	report_call("first reads a value", comedi_data_read(first, 0, 1, 0, AREF_GROUND, &code));
	comedi_close(first);
	report_call("second reads a value", comedi_data_read(second, 0, 1, 0, AREF_GROUND, &code));
	report_call("a subdevice that isn't there", comedi_lock(second, 9));
	comedi_close(second);
	return 0;
}

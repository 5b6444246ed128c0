/*
 * Who has a subdevice, as two files see it, and what goes by that. On bench.board subdevice 0 is an input, and 1 and 4 are
 * outputs. Sample k of channel 0 is taken at 6,000 + k * 1,000,000 ns, where it is at -4.99994 + k * 0.01 V; -10 V is the code 0,
 * and 10 V is 65535.
 */
#include "client.h"

static comedi_t *first, *second;

static void report_call(const char *what, int result)
{
	printf("%s: %s\n", what, result >= 0 ? "done" : strerror(comedi_errno()));
}

static void report_flags(const char *what, unsigned subdevice)
{
	static const struct {
		int flag;
		const char *name;
	} names[] = { { SDF_LOCKED, "locked" }, { SDF_LOCK_OWNER, "by itself" }, { SDF_BUSY, "busy" }, { SDF_BUSY_OWNER, "with itself" }, { SDF_RUNNING, "running" } };
	comedi_t *devices[] = { first, second };
	for (int i = 0; i < 2; i++) {
		int flags = comedi_get_subdevice_flags(devices[i], subdevice);
		printf("%s, %s sees:", what, i ? "second" : "first");
		for (size_t k = 0; k < sizeof names / sizeof *names; k++)
			if (flags & names[k].flag)
				printf(" %s", names[k].name);
		printf("\n");
	}
}

static void read_all(void)
{
	static const sampl_t words[4];
	report_call("first locks", comedi_lock(first, 0));
	report_flags("locked", 0);
	report_call("first gives a command", give_command(first, 0, TRIG_NOW, MILLISECOND, 4));
	report_flags("called", 0);
	usleep(10000);
	report_flags("ended", 0);
	read_and_print(first, 8);
	read_and_print(first, 8);
	report_flags("read", 0);
	report_call("second gives a command", give_command(second, 1, TRIG_INT, MILLISECOND, 0));
	report("second writes", write(comedi_fileno(second), words, sizeof words));
	report_call("first triggers it", comedi_internal_trigger(first, 1, 0));
	report_flags("triggered", 1);
}

int main(void)
{
	first = open_board();
	second = open_board();
	report_flags("open", 0);
	read_all();
	report_call("second chooses another output", comedi_set_write_subdevice(second, 4));
	report_call("first chooses it", comedi_set_write_subdevice(first, 4));
	report_call("second cancels", comedi_cancel(second, 1));
	report_call("second chooses another output", comedi_set_write_subdevice(second, 4));
	comedi_close(first);
	first = open_board();
	report_flags("closed", 0);
	return 0;
}

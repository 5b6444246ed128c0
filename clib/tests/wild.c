/*
 * Arguments that lead nowhere: a pointer into nothing is EFAULT, a number that isn't there EINVAL (ENODEV for a command),
 * and a request that isn't Comedi's, or only an old one, ENOTTY. Nothing of it ends the client.
 */
#include "client.h"
#include <sys/ioctl.h>

static int descriptor;
static void *volatile nowhere = (void *)32;

static void ask(const char *what, unsigned long request, void *argument)
{
	int result = ioctl(descriptor, request, argument);
	if (result >= 0)
		printf("%s: %d\n", what, result);
	else
		printf("%s: %s\n", what, strerror(errno));
}

static void ask_with_pointer(void *pointer)
{
	ask("DEVINFO", COMEDI_DEVINFO, pointer);
	ask("SUBDINFO", COMEDI_SUBDINFO, pointer);
	ask("CHANINFO", COMEDI_CHANINFO, pointer);
	ask("RANGEINFO", COMEDI_RANGEINFO, pointer);
	ask("CMD", COMEDI_CMD, pointer);
	ask("CMDTEST", COMEDI_CMDTEST, pointer);
	ask("INSN", COMEDI_INSN, pointer);
	ask("INSNLIST", COMEDI_INSNLIST, pointer);
	ask("BUFINFO", COMEDI_BUFINFO, pointer);
	ask("BUFCONFIG", COMEDI_BUFCONFIG, pointer);
}

static void ask_instructions(void)
{
	comedi_insn one = { .insn = INSN_READ, .n = 4, .data = NULL, .subdev = 0 };
	comedi_insnlist list = { .n_insns = 1, .insns = (comedi_insn *)16 };
	ask("a read into nothing", COMEDI_INSN, &one);
	one.insn = INSN_WRITE;
	ask("a write from nothing", COMEDI_INSN, &one);
	one.n = 1u << 31;
	ask("too much data", COMEDI_INSN, &one);
	one = (comedi_insn){ .insn = 12345, .subdev = 0 };
	ask("an instruction that isn't there", COMEDI_INSN, &one);
	one = (comedi_insn){ .insn = INSN_READ, .subdev = 4000000000u };
	ask("a subdevice that isn't there", COMEDI_INSN, &one);
	one = (comedi_insn){ .insn = INSN_READ, .subdev = 0, .chanspec = 0xffff };
	ask("a channel that isn't there", COMEDI_INSN, &one);
	ask("a list of nothing", COMEDI_INSNLIST, &list);
	list.n_insns = 4000000000u;
	ask("too many instructions", COMEDI_INSNLIST, &list);
}

static void ask_commands(void)
{
	comedi_cmd command = { .subdev = 0, .chanlist = (unsigned *)24, .chanlist_len = 1 };
	ask("a list into nothing", COMEDI_CMD, &command);
	ask("a list into nothing, tested", COMEDI_CMDTEST, &command);
	command.chanlist_len = 4000000000u;
	ask("a list that is too long", COMEDI_CMD, &command);
	command = (comedi_cmd){ .subdev = 77 };
	ask("a command of no subdevice", COMEDI_CMD, &command);
	command.subdev = 2;
	ask("a command of a subdevice without them", COMEDI_CMD, &command);
}

static void ask_numbers(void)
{
	comedi_chaninfo channels = { .subdev = 99 };
	comedi_rangeinfo ranges = { .range_type = 0xffffffff };
	comedi_bufinfo buffer = { .subdevice = 99 };
	comedi_bufconfig size = { .subdevice = 99 };
	ask("channels of no subdevice", COMEDI_CHANINFO, &channels);
	ask("ranges of no subdevice", COMEDI_RANGEINFO, &ranges);
	ask("the buffer of no subdevice", COMEDI_BUFINFO, &buffer);
	ask("its size", COMEDI_BUFCONFIG, &size);
	ask("its lock", COMEDI_LOCK, (void *)99);
	ask("its end", COMEDI_CANCEL, (void *)-1L);
	ask("a request that isn't Comedi's", 0x5401, NULL);
	ask("reads of an input", COMEDI_SETRSUBD, (void *)0);
	ask("reads of an output", COMEDI_SETRSUBD, (void *)1);
	ask("writes of an output", COMEDI_SETWSUBD, (void *)1);
	ask("writes of lines without commands", COMEDI_SETWSUBD, (void *)2);
	ask("a board's configuration", COMEDI_DEVCONFIG, NULL);
	ask("a command as of old", COMEDI_TRIG, NULL);
}

int main(void)
{
	comedi_t *device = open_board();
	descriptor = comedi_fileno(device);
	ask_with_pointer(NULL);
	ask_with_pointer((void *)8);
	ask_instructions();
	ask_commands();
	ask_numbers();
	if (!report("command", give_command(device, 0, TRIG_NOW, MILLISECOND, 4)))
		report("read into nothing", read(descriptor, nowhere, 4));
	read_and_print(device, 4);
	comedi_close(device);
	return 0;
}

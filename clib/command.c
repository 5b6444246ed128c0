/*
 * Commands: a comedi_cmd as the text of a command, and the numbers that its test leaves.
 */
#define _GNU_SOURCE
#include "device.h"
#include "kernel.h"
#include "server.h"
#include <errno.h>
#include <stdio.h>
#include <string.h>

#define SOURCES 9
/* the sources and the argument of each of five triggers */
#define TRIGGER_NUMBERS 10

static const char *const source_names[SOURCES] = { "none", "now", "follow", "time", "timer", "count", "ext", "int", "other" };

/* room for the longest command: 1,024 entries */
static char text[1 << 15];
static unsigned list[MOST_ENTRIES];

static unsigned *triggers_of(comedi_cmd *command)
{
	_Static_assert(offsetof(comedi_cmd, stop_arg) == offsetof(comedi_cmd, start_src) + 9 * sizeof(unsigned), "five triggers in a row");
	return &command->start_src;
}

/* Sources without a name of their own are written as `other`, which no board has either. */
static int put_trigger(char *at, unsigned sources, unsigned argument)
{
	int length = 0;
	if (sources >> SOURCES)
		sources |= TRIG_OTHER;
	for (int i = 0; i < SOURCES; i++)
		if (sources >> i & 1)
			length += sprintf(at + length, "%s%s", length ? "|" : "", source_names[i]);
	if (!length)
		length = sprintf(at, "invalid");
	return length + sprintf(at + length, ":%u ", argument);
}

/* The command as text. */
static void put_command(comedi_cmd *command, const unsigned *entries)
{
	int length = sprintf(text, "%u %u ", command->subdev, command->flags);
	for (const unsigned *next = triggers_of(command), *end = next + TRIGGER_NUMBERS; next < end; next += 2)
		length += put_trigger(text + length, next[0], next[1]);
	if (!command->chanlist_len)
		sprintf(text + length, "-");
	for (unsigned i = 0; i < command->chanlist_len; i++)
		length += sprintf(text + length, "%s%s", i ? "," : "", entry_text(entries[i]));
}

/* __comedi_get_user_cmd: the subdevice of a command, and the length of its list. The direction is put into its flags. */
static int find_subdevice(comedi_cmd *command, struct subdevice **s)
{
	if (command->subdev >= device->subdevices)
		return -ENODEV;
	*s = &device->subdevice[command->subdev];
	if (!((*s)->flags & SDF_CMD))
		return -EIO;
	if (command->chanlist_len > (*s)->list_length || command->chanlist_len > MOST_ENTRIES)
		return -EINVAL;
	command->flags = board_is_input(*s) ? command->flags & ~CMDF_WRITE : command->flags | CMDF_WRITE;
	return 0;
}

/* __comedi_get_user_chanlist: puts the client's list into `list`. */
static int take_list(const struct subdevice *s, const comedi_cmd *command)
{
	if (copy_in(list, command->chanlist, command->chanlist_len * sizeof *list))
		return -EFAULT;
	return kernel_refuses_entries(s, list, command->chanlist_len) ? -EINVAL : 0;
}

/* Asks for the test of a command, and gives it the triggers that this leaves. Answers the step. */
static int ask_test(comedi_cmd *command)
{
	uint64_t numbers[1 + TRIGGER_NUMBERS];
	put_command(command, list);
	int result = question_untimed("cmdtest", text, NULL);
	if (result)
		return result;
	if (answer_numbers(numbers, 1 + TRIGGER_NUMBERS) != 1 + TRIGGER_NUMBERS)
		return -EIO;
	for (int i = 0; i < TRIGGER_NUMBERS; i++)
		triggers_of(command)[i] = numbers[1 + i];
	return numbers[0];
}

int command_test(comedi_cmd *command)
{
	struct subdevice *s;
	int result = find_subdevice(command, &s);
	/* without a list it is tested with one of that length that is good on any board */
	memset(list, 0, sizeof list);
	if (!result && command->chanlist)
		result = take_list(s, command);
	if (result)
		return result;
	result = ask_test(command);
	/* and then nothing is said about the list */
	return result == 5 && !command->chanlist ? 0 : result;
}

static int ask_call(int file, comedi_cmd *command)
{
	put_command(command, list);
	return line_of_session("cmd %d %s", file, text);
}

/* A command whose list can't be used. What stands before the list, a lock and another command, is found by asking for
 * one with an empty list, which is always refused. */
static int refuse_list(int file, comedi_cmd asked, int error)
{
	asked.chanlist_len = 0;
	int result = ask_call(file, &asked);
	return result == -EINVAL ? error : result;
}

/* Returns after how many scans a command stops: NEVER if it doesn't, and 0 if an edge stops it, which isn't known before. */
static uint64_t stops_after(const comedi_cmd *command)
{
	return command->stop_src == TRIG_COUNT ? command->stop_arg : command->stop_src == TRIG_NONE ? NEVER : 0;
}

int command_call(int file, comedi_cmd *command)
{
	struct subdevice *s;
	int result = find_subdevice(command, &s);
	if (result)
		return result;
	result = command->chanlist_len ? take_list(s, command) : -EINVAL;
	if (result)
		return refuse_list(file, *command, result);
	comedi_cmd asked = *command;
	/* one that only goes through the motions is refused like any other in the kernel's core, and where nothing is wrong with
	 * it too, with EAGAIN: a source that no board has is asked for, and the test reports it */
	if (asked.flags & CMDF_BOGUS)
		asked.start_src = 0;
	result = ask_call(file, &asked);
	if (result == -EAGAIN || result == -EINVAL)
		ask_test(command);
	if (!result) {
		device_changed();
		scans_begin(s, command->chanlist_len, device->wake == WAKE_SCAN || command->flags & CMDF_WAKE_EOS, stops_after(command));
		s->filled = 0;
	}
	return kernel_result(CALL_COMMAND, result);
}

/*
 * The ioctls of the device file. A question that changes nothing takes no time.
 */
#define _GNU_SOURCE
#include "device.h"
#include "kernel.h"
#include "server.h"
#include <errno.h>
#include <stdio.h>
#include <string.h>
#include <sys/ioctl.h>

/* version 0.7.76, as the kernel's */
#define VERSION_CODE (0 << 16 | 7 << 8 | 76)
/* a subdevice's number of a call, or one that none has */
#define NONE 255

static int device_information(int file, comedi_devinfo *to)
{
	comedi_devinfo information;
	memset(&information, 0, sizeof information);
	information.version_code = VERSION_CODE;
	information.n_subdevs = device->subdevices;
	snprintf(information.driver_name, sizeof information.driver_name, "zendrouz");
	snprintf(information.board_name, sizeof information.board_name, "%.19s", device->name);
	information.read_subdevice = device->file[file].read_subdevice;
	information.write_subdevice = device->file[file].write_subdevice;
	return copy_out(to, &information, sizeof information);
}

static int channel_information(const void *argument)
{
	comedi_chaninfo asked;
	return copy_in(&asked, argument, sizeof asked) ? -EFAULT : board_channels(&asked);
}

static int range_information(const void *argument)
{
	comedi_rangeinfo asked;
	return copy_in(&asked, argument, sizeof asked) ? -EFAULT : board_ranges(&asked);
}

/* A command or its test. What the test leaves of the command comes back, except its list. A command that is taken is
 * only read: it may be in memory that can't be written. */
static int command_call_or_test(int file, unsigned request, void *argument)
{
	comedi_cmd command;
	if (copy_in(&command, argument, sizeof command))
		return -EFAULT;
	int result = request == COMEDI_CMD ? command_call(file, &command) : command_test(&command);
	if (request == COMEDI_CMD && result != -EAGAIN)
		return result;
	if (request == COMEDI_CMD)
		command.data = NULL;
	if (result < 0 && result != -EAGAIN)
		return result;
	return copy_out(argument, &command, sizeof command) ? -EFAULT : result;
}

static int instruction_call(int file, unsigned request, const void *argument)
{
	comedi_insn instruction;
	comedi_insnlist list;
	if (request == COMEDI_INSN && copy_in(&instruction, argument, sizeof instruction))
		return -EFAULT;
	/* in a list too many values are refused, and here the rest of them is left */
	if (request == COMEDI_INSN && instruction.n > MOST_DATA)
		instruction.n = MOST_DATA;
	if (request == COMEDI_INSN)
		return instruction_one(file, &instruction);
	return copy_in(&list, argument, sizeof list) ? -EFAULT : instruction_list(file, &list);
}

static int buffer_information(int file, void *argument)
{
	comedi_bufinfo information;
	if (copy_in(&information, argument, sizeof information))
		return -EFAULT;
	int result = buffer_info(file, &information);
	return result < 0 ? result : copy_out(argument, &information, sizeof information);
}

/* Sets or asks for the size of a buffer, which is what the board's text says. A smaller one is as good; a larger one, or another
 * limit, is refused as of a user who may not. While a command has the buffer, or a client has mapped it, its size can't be
 * changed. A subdevice without commands has none. */
static int buffer_size(void *argument)
{
	comedi_bufconfig asked;
	if (copy_in(&asked, argument, sizeof asked))
		return -EFAULT;
	if (asked.subdevice >= device->subdevices)
		return -EINVAL;
	const struct subdevice *s = &device->subdevice[asked.subdevice];
	int has_buffer = (s->flags & SDF_CMD) != 0;
	unsigned size = has_buffer ? s->buffer * s->sample_bytes : 0;
	if (has_buffer && (asked.maximum_size || asked.size > size))
		return -EPERM;
	if (has_buffer && asked.size && (board_runner(asked.subdevice) != NO_FILE || buffer_is_mapped(asked.subdevice)))
		return -EBUSY;
	asked.size = asked.maximum_size = size;
	return copy_out(argument, &asked, sizeof asked);
}

static int lock_call(int file, unsigned number, int locks)
{
	int result = line_of_session("%s %d %u", locks ? "lock" : "unlock", file, number);
	return kernel_result(locks ? CALL_LOCK : CALL_UNLOCK, result);
}

/* The kernel's cancel doesn't look at the lock: what it answers is by who runs the command. */
static int cancel_call(int file, unsigned number)
{
	int result = line_of_session("cancel %d %u", file, number);
	if (!result)
		device_changed();
	if (result == -EACCES)
		return board_runner(number) == NO_FILE ? 0 : -EBUSY;
	return kernel_result(CALL_CANCEL, result);
}

/* Asks the board for what it holds back. Boards here hand over by themselves, so this answers with the number of bytes that are there. */
static int poll_call(int file, unsigned number)
{
	struct counts counts;
	int runner = board_runner(number);
	if (number >= device->subdevices)
		return -EINVAL;
	if (runner != file)
		return runner == NO_FILE ? 0 : -EBUSY;
	int result = scans_count(file, number, &counts);
	if (result)
		return kernel_result(CALL_BUFFER, result);
	const struct subdevice *s = &device->subdevice[number];
	return (counts.written - counts.read) * s->sample_bytes - (board_is_input(s) ? s->part : 0);
}

/* Which subdevice read and write of a file are for. */
static int choose_subdevice(int file, unsigned number, int reads)
{
	if (number >= device->subdevices || !(device->subdevice[number].flags & SDF_CMD))
		return -EINVAL;
	if (board_is_input(&device->subdevice[number]) != reads)
		return -EINVAL;
	int *chosen = reads ? &device->file[file].read_subdevice : &device->file[file].write_subdevice;
	if (*chosen != (int)number && *chosen != NO_SUBDEVICE && board_runner(*chosen) == file)
		return -EBUSY;
	*chosen = number;
	return 0;
}

static int subdevice_call(int file, unsigned request, void *argument)
{
	uintptr_t asked = (uintptr_t)argument;
	unsigned number = asked < NONE ? asked : NONE;
	switch (request) {
	case COMEDI_LOCK:
	case COMEDI_UNLOCK:
		return lock_call(file, number, request == COMEDI_LOCK);
	case COMEDI_CANCEL:
		return cancel_call(file, number);
	case COMEDI_POLL:
		return poll_call(file, number);
	case COMEDI_SETRSUBD:
	case COMEDI_SETWSUBD:
		return choose_subdevice(file, number, request == COMEDI_SETRSUBD);
	}
	return -ENOTTY;
}

static int is_question(unsigned request)
{
	switch (request) {
	case COMEDI_DEVINFO:
	case COMEDI_SUBDINFO:
	case COMEDI_CHANINFO:
	case COMEDI_RANGEINFO:
	case COMEDI_CMDTEST:
	case COMEDI_BUFCONFIG:
	case COMEDI_SETRSUBD:
	case COMEDI_SETWSUBD:
		return 1;
	}
	return 0;
}

int device_ioctl(int file, unsigned long wide_request, void *argument)
{
	unsigned request = wide_request;
	if (server_is_lost())
		return -EIO;
	if (!is_question(request))
		time_call();
	device_close_left();
	switch (request) {
	case COMEDI_DEVINFO:
		return device_information(file, argument);
	case COMEDI_SUBDINFO:
		return board_subdevices(file, argument);
	case COMEDI_CHANINFO:
		return channel_information(argument);
	case COMEDI_RANGEINFO:
		return range_information(argument);
	case COMEDI_CMD:
	case COMEDI_CMDTEST:
		return command_call_or_test(file, request, argument);
	case COMEDI_INSN:
	case COMEDI_INSNLIST:
		return instruction_call(file, request, argument);
	case COMEDI_BUFINFO:
		return buffer_information(file, argument);
	case COMEDI_BUFCONFIG:
		return buffer_size(argument);
	}
	return subdevice_call(file, request, argument);
}

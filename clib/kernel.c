/*
 * Where the kernel's core of Comedi (drivers/comedi/comedi_fops.c and range.c of Linux 6.1) answers a call with
 * another error number than the session has (docs/REFUSALS.md). Programs compare these numbers, so a client gets the
 * kernel's. Nothing here changes what a board does: a refused call is a refused call in both.
 */
#include "device.h"
#include "kernel.h"
#include "server.h"
#include <errno.h>

static const struct {
	enum call call;
	int session, kernel;
} differences[] = {
	/* A subdevice that isn't there. do_lock_ioctl, do_unlock_ioctl, do_cancel_ioctl, do_bufinfo_ioctl and
	 * parse_insn answer EINVAL; only __comedi_get_user_cmd has ENODEV. Of an unused one parse_insn answers EIO. */
	{ CALL_LOCK, -ENODEV, -EINVAL },
	{ CALL_UNLOCK, -ENODEV, -EINVAL },
	{ CALL_CANCEL, -ENODEV, -EINVAL },
	{ CALL_BUFFER, -ENODEV, -EINVAL },
	{ CALL_INSTRUCTION, -ENODEV, -EINVAL },
	{ CALL_TRIGGER, -ENODEV, -EINVAL },
	/* A subdevice that takes no commands. EIO is for comedi_read, comedi_write and __comedi_get_user_cmd. */
	{ CALL_CANCEL, -EIO, -EINVAL },
	{ CALL_BUFFER, -EIO, -EINVAL },
	{ CALL_TRIGGER, -EIO, -EINVAL },
	/* An unused subdevice. do_lock_ioctl looks at no type: the lock is granted, and keeps nobody from anything. */
	{ CALL_LOCK, -EIO, 0 },
	{ CALL_UNLOCK, -EIO, 0 },
	/* A file that doesn't run the command. comedi_read, comedi_write and do_bufinfo_ioctl answer EINVAL; EACCES
	 * is the lock's alone. */
	{ CALL_READ, -EACCES, -EINVAL },
	{ CALL_WRITE, -EACCES, -EINVAL },
	{ CALL_BUFFER, -EACCES, -EINVAL },
	/* A list that breaks a rule of the driver, as one range for all its entries. That is the driver's step 5, and
	 * do_cmd_ioctl answers EAGAIN to every step. */
	{ CALL_COMMAND, -EINVAL, -EAGAIN },
};

int kernel_result(enum call call, int result)
{
	/* an error of the session, and not that there is no answer any more */
	if (result == -EIO && server_is_lost())
		return result;
	for (unsigned i = 0; i < sizeof differences / sizeof *differences; i++)
		if (differences[i].call == call && differences[i].session == result)
			return differences[i].kernel;
	return result;
}

/* comedi_check_chanlist: channels and ranges that aren't there are refused before any step of a test. In the session
 * that is step 5. */
int kernel_refuses_entries(const struct subdevice *s, const unsigned *list, unsigned count)
{
	for (unsigned i = 0; i < count; i++) {
		unsigned channel = CR_CHAN(list[i]);
		if (channel >= s->channels || CR_RANGE(list[i]) >= s->channel[channel].ranges)
			return 1;
	}
	return 0;
}

/*
 * The signals that tell of the board's samples (O_ASYNC). As by the kernel they are sent when samples come to an input or are
 * put out, and when a command ends, whoever has called it. They go to the owner of each file that was asked for them, which
 * F_SETOWN or F_SETOWN_EX sets, and to nobody if there is none. They come in waits, where the time goes on (turns.c).
 *
 * The kernel's driver without hardware tells of samples at the ticks of its timer, and boards do when a part of their FIFO is
 * full. Here signals are at least a millisecond apart.
 */
#define _GNU_SOURCE
#include "descriptors.h"
#include "device.h"
#include "names.h"
#include <fcntl.h>
#include <poll.h>
#include <signal.h>
#include <string.h>
#include <sys/syscall.h>
#include <unistd.h>

#define LEAST_DISTANCE 1000000

/* What comes next, as it was found at a time of the client and after so many changes of the board. */
static struct {
	uint64_t found_at, changes, time;
	int is_output;
} next = { .time = NEVER };

/* Returns whether what was found has come meanwhile, and nobody was told. */
static int is_untold(void)
{
	return next.time <= device->client_now && next.time > device->signalled && next.changes == device_changes();
}

/* Looks for what comes next, within the device. */
static void find_next(void)
{
	int runners[MOST_SUBDEVICES];
	uint64_t time, least = device->signalled ? device->signalled + LEAST_DISTANCE : 0;
	next.found_at = device->client_now;
	next.changes = device_changes();
	next.time = NEVER;
	board_runners(runners);
	for (unsigned i = 0; i < device->subdevices; i++)
		if (runners[i] != NO_FILE && stream_next_event(runners[i], i, &time) && time < next.time) {
			next.time = time;
			next.is_output = !board_is_input(&device->subdevice[i]);
		}
	next.time = next.time < least ? least : next.time;
}

/* Returns the time at which signals are sent next, or NEVER. */
uint64_t events_next(void)
{
	if (!descriptors_asynchronous())
		return NEVER;
	device_enter();
	time_catch_up();
	if (!is_untold() && (next.found_at != device->client_now || next.changes != device_changes()))
		find_next();
	uint64_t time = next.time;
	device_leave();
	return time;
}

/* Sends a signal to the owner of a file. A process gets it in its first thread if that one waits and lets it in, as the kernel
 * prefers. A signal that looks as the kernel's own can be sent to the thread itself alone, so others have the code SI_SIGIO. */
static void send_to_owner(int file, int is_output)
{
	int descriptor = descriptors_of(file), wanted = device->file[file].signal, number = wanted ? wanted : SIGIO;
	struct f_owner_ex owner;
	siginfo_t information;
	if (descriptor < 0 || REAL(fcntl)(descriptor, F_GETOWN_EX, &owner) || owner.pid <= 0)
		return;
	memset(&information, 0, sizeof information);
	information.si_signo = number;
	information.si_code = owner.pid != gettid() ? SI_SIGIO : is_output ? POLL_OUT : POLL_IN;
	information.si_band = is_output ? POLLOUT | POLLWRNORM : POLLIN | POLLRDNORM;
	information.si_fd = descriptor;
	if (owner.type == F_OWNER_PGRP)
		kill(-owner.pid, number);
	else if (owner.type == F_OWNER_TID || turns_let_in(owner.pid, number))
		syscall(SYS_rt_tgsigqueueinfo, getpid(), owner.pid, number, &information);
	else
		syscall(SYS_rt_sigqueueinfo, owner.pid, number, &information);
}

/* Sends the signals for what has come by now, unless another thread or process has. Returns whether it did. */
int events_tell(void)
{
	unsigned files = descriptors_asynchronous();
	if (!files)
		return 0;
	device_enter();
	int is_new = is_untold(), is_output = next.is_output;
	if (is_new)
		device->signalled = device->client_now;
	device_leave();
	for (int i = 0; is_new && i < MOST_FILES; i++)
		if (files >> i & 1)
			send_to_owner(i, is_output);
	return is_new;
}

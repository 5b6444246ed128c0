/*
 * The record: the lines of the session as they were asked, in the file that ZENDROUZ_LOG names. Behind the board's text it
 * is a job for `comedi replay`. Notes are comments there.
 *
 * The last line says that the record is whole. The lines of each call are put before it, into room that is mapped (tail.c) or
 * by writing it anew behind them. So it's missing if a line couldn't be written, or if the client was killed while that was
 * done. In a pipe or on a terminal nothing can be written over, and there is no such line.
 */
#define _GNU_SOURCE
#include "descriptors.h"
#include "device.h"
#include "server.h"
#include <errno.h>
#include <fcntl.h>
#include <limits.h>
#include <stdarg.h>
#include <stdio.h>
#include <stdlib.h>
#include <string.h>
#include <sys/file.h>
#include <sys/stat.h>
#include <sys/syscall.h>
#include <unistd.h>

static int record = -1;
/* whether it's a file in which can be written over, whether its end is mapped (tail.c), and its name */
static int is_file, is_mapped;
static char name[PATH_MAX];
/* the lines of one call, which are written at its end */
static char held[(1 << 16) + sizeof WHOLE];
static size_t length_of_held;

/* Called in a child made by fork. It may have lines of a call of another thread, which writes them itself. */
void record_begin_child(void)
{
	length_of_held = 0;
	tail_begin_child();
}

/* Writes the lines at the record's end, and behind them that it's whole. Returns 0, or an error number. */
static int write_held(int descriptor)
{
	size_t length = length_of_held, done = 0;
	if (is_file) {
		memcpy(held + length, WHOLE, sizeof WHOLE - 1);
		length += sizeof WHOLE - 1;
	}
	while (done < length) {
		long count = is_file ? syscall(SYS_pwrite64, descriptor, held + done, length - done, device->record_length + done)
			: syscall(SYS_write, descriptor, held + done, length - done);
		if (count <= 0)
			return count ? errno : ENOSPC;
		done += count;
	}
	return 0;
}

/* Returns whether the record ends here, as far as is known: no file is open. */
static int is_closed(void)
{
	for (int i = 0; i < MOST_FILES; i++)
		if (device->file[i].is_open)
			return 0;
	return 1;
}

/* Puts the lines behind the others, by memory or by a system call. Returns 0, or an error number. */
static int put_held(int descriptor)
{
	if (is_mapped && !is_closed() && !tail_put(descriptor, held, length_of_held))
		return 0;
	int error = tail_end(descriptor);
	if (!error)
		error = write_held(descriptor);
	device->record_length += error ? 0 : length_of_held;
	device->record_end = device->record_length;
	return error;
}

/* Begins the record in a file that was opened, unless another program has its own there. Returns 0, or an error number. */
static int begin(int descriptor)
{
	struct stat state;
	if (syscall(SYS_fstat, descriptor, &state))
		return errno;
	is_file = S_ISREG(state.st_mode);
	is_mapped = is_file && tail_can_map(descriptor);
	device->record_length = device->record_end = device->record_is_cut = length_of_held = 0;
	if (!is_file)
		return 0;
	if (flock(descriptor, LOCK_EX | LOCK_NB) && errno == EWOULDBLOCK)
		return EBUSY;
	return ftruncate(descriptor, 0) ? errno : write_held(descriptor);
}

/* Says why there is no record. Returns the negative error number. */
static int refuse(int error)
{
	const char *busy = "another program writes its record there. Give each program a file of its own";
	message("ZENDROUZ_LOG=%s: %s", name, error == EBUSY ? busy : strerror(error));
	return -error;
}

/* Opens a file for the record. One that is mapped has to be open for reading, too, but a pipe waits for who reads it. Returns
 * its descriptor, or -1. */
static int open_file(const char *path)
{
	const int flags = O_CREAT | O_CLOEXEC | O_NOCTTY;
	struct stat state;
	int is_there = !stat(path, &state), descriptor = -1;
	if (!is_there || S_ISREG(state.st_mode))
		descriptor = syscall(SYS_openat, AT_FDCWD, path, O_RDWR | flags, 0666);
	if (descriptor < 0)
		descriptor = syscall(SYS_openat, AT_FDCWD, path, O_WRONLY | flags, 0666);
	return keep_away(descriptor);
}

/* Opens the record under the name in the environment, if there is one. Returns 0, or a negative error number after a line on
 * standard error. */
int record_open(void)
{
	const char *path = getenv("ZENDROUZ_LOG");
	if (!path || !*path)
		return 0;
	snprintf(name, sizeof name, "%s", path);
	int descriptor = open_file(path);
	int error = descriptor < 0 ? errno : begin(descriptor);
	if (error && descriptor >= 0)
		syscall(SYS_close, descriptor);
	if (error)
		return refuse(error);
	record = descriptor;
	descriptors_protect(&record);
	return 0;
}

/* Ends the record, since lines can't be written. Removes what was written of them, and the line that says that the record is
 * whole. */
static void cut_off(int error)
{
	device->record_is_cut = 1;
	device->record_end = device->record_length;
	if (is_file && ftruncate(record, device->record_length))
		error = errno;
	message("ZENDROUZ_LOG=%s: %s. The record ends here, and the program goes on", name, strerror(error));
}

void record_flush(void)
{
	if (!length_of_held)
		return;
	int error = device->record_is_cut ? 0 : put_held(record);
	if (error)
		cut_off(error);
	length_of_held = 0;
}

int record_is_there(void)
{
	return record >= 0;
}

/* Puts text behind what was recorded in this call. */
void record_put(const char *text, size_t length)
{
	const size_t room = sizeof held - sizeof WHOLE;
	if (length_of_held + length > room)
		record_flush();
	if (record < 0 || length > room)
		return;
	memcpy(held + length_of_held, text, length);
	length_of_held += length;
}

/* Records a line that may have changed something. */
void record_line(const char *text, size_t length)
{
	if (record < 0)
		return;
	folding_end();
	record_put(text, length);
}

/* Records a question that changes nothing, unless the lines before it have it already. */
void record_question(const char *text, size_t length, const char *answer)
{
	const char *words = record < 0 ? NULL : memchr(text, ' ', length);
	if (words && !folding_leaves_out(device->now, words, text + length - words, answer))
		record_put(text, length);
}

/* Records that the client sleeps for so long from now on. That is a comment. */
void record_sleep(uint64_t nanoseconds)
{
	char text[64];
	if (record < 0)
		return;
	int start = snprintf(text, sizeof text, "# %llu", (unsigned long long)device->now);
	int length = start + snprintf(text + start, sizeof text - start, " sleep %llu\n", (unsigned long long)nanoseconds);
	if (!folding_leaves_out(device->now, text + start, length - start, ""))
		record_put(text, length);
}

/* Records a comment on what has happened. */
void record_note(const char *form, ...)
{
	static char text[1024];
	va_list values;
	if (record < 0)
		return;
	memcpy(text, "# ", 2);
	va_start(values, form);
	int length = 2 + vsnprintf(text + 2, sizeof text - 3, form, values);
	va_end(values);
	if (length < 2 || length > (int)sizeof text - 2)
		return;
	text[length] = '\n';
	record_line(text, length + 1);
}

/* Says at the end of this process how many questions were left out last, and takes away the room behind them, unless another
 * thread or process has the device. */
__attribute__((destructor)) static void end_record(void)
{
	if (record < 0 || !device_try_enter())
		return;
	folding_end();
	record_flush();
	if (is_mapped && !device->record_is_cut)
		tail_end(record);
	device_leave();
}

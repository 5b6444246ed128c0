/*
 * The C library's names by which descriptors come and go. Those of the device are counted: a file of the session is closed
 * with the last of its descriptors. The library's own descriptors stay.
 */
#define _GNU_SOURCE
#include "descriptors.h"
#include "device.h"
#include "names.h"
#include <errno.h>
#include <fcntl.h>
#include <limits.h>
#include <signal.h>
#include <stdarg.h>
#include <stdio.h>
#include <sys/epoll.h>
#include <unistd.h>

/* what the kernel puts into the flags of each file that a program of 64 bits opens */
#define LARGE_FILE 0100000
/* what else it shows of those of an open */
#define SHOWN_FLAGS (O_NOFOLLOW | O_NOATIME | O_SYNC)

/* Refuses to open the device as a folder, as a new file, or past the system's memory of files. */
static int check_flags(int flags)
{
	if (flags & O_DIRECTORY)
		return -ENOTDIR;
	if ((flags & (O_CREAT | O_EXCL)) == (O_CREAT | O_EXCL))
		return -EEXIST;
	return flags & O_DIRECT ? -EINVAL : 0;
}

static int open_device(const char *path, int flags)
{
	int file = check_flags(flags);
	if (!file)
		file = device_open(path);
	if (file < 0)
		return names_answer(file);
	device->file[file].minor = device_minor(path);
	device->file[file].flags = flags & SHOWN_FLAGS;
	int descriptor = descriptors_make(file, flags);
	if (descriptor < 0) {
		device->file[file].is_new = 0;
		device_close(file);
	}
	return names_answer(descriptor);
}

/* Forgets a number. Returns the file of which it was the last one, or NO_FILE. A child made by vfork has numbers of its own,
 * and changes nothing here. */
static int forget(int descriptor)
{
	return descriptors_are_ours() ? descriptors_forget(descriptor) : NO_FILE;
}

/* Closes a file, when the kernel has closed its last number. */
static void close_file(int file)
{
	if (file != NO_FILE)
		device_close(file);
}

/* Notes that the system has just given a number. If the device had it, it was closed past these names. */
int openings_fresh(int descriptor)
{
	if (descriptor >= 0)
		close_file(forget(descriptor));
	return descriptor;
}

/* Opens a board that is named from a folder on. */
static int open_device_at(int folder, const char *path, int flags)
{
	char name[512];
	if (*path == '/' || folder == AT_FDCWD)
		return open_device(path, flags);
	if (snprintf(name, sizeof name, "/proc/self/fd/%d/%s", folder, path) >= (int)sizeof name)
		return names_answer(-ENAMETOOLONG);
	return open_device(name, flags);
}

static int mode_of(int flags, va_list values)
{
	return flags & O_CREAT || (flags & O_TMPFILE) == O_TMPFILE ? va_arg(values, int) : 0;
}

#define OPEN(name) \
	PUBLIC int name(const char *path, int flags, ...) \
	{ \
		va_list values; \
		va_start(values, flags); \
		int mode = mode_of(flags, values); \
		va_end(values); \
		return device_serves(path, flags) ? open_device(path, flags) : openings_fresh(REAL(name)(path, flags, mode)); \
	}
#define OPEN_AT(name) \
	PUBLIC int name(int folder, const char *path, int flags, ...) \
	{ \
		va_list values; \
		va_start(values, flags); \
		int mode = mode_of(flags, values); \
		va_end(values); \
		return device_serves(path, flags) ? open_device_at(folder, path, flags) : openings_fresh(REAL(name)(folder, path, flags, mode)); \
	}

OPEN(open)
OPEN(open64)
OPEN_AT(openat)
OPEN_AT(openat64)

PUBLIC int __open_2(const char *path, int flags)
{
	return open(path, flags);
}

PUBLIC int __open64_2(const char *path, int flags)
{
	return open(path, flags);
}

PUBLIC int __openat_2(int folder, const char *path, int flags)
{
	return openat(folder, path, flags);
}

PUBLIC int __openat64_2(int folder, const char *path, int flags)
{
	return openat(folder, path, flags);
}

PUBLIC int epoll_create(int size)
{
	return openings_fresh(REAL(epoll_create)(size));
}

PUBLIC int epoll_create1(int flags)
{
	return openings_fresh(REAL(epoll_create1)(flags));
}

PUBLIC int close(int descriptor)
{
	if (descriptors_are_private(descriptor) && descriptors_are_ours())
		return names_answer(-EBADF);
	int file = forget(descriptor), result = REAL(close)(descriptor);
	close_file(file);
	return result;
}

/* Closes a range of numbers in the kernel, except those of this library. */
static int close_numbers(unsigned first, unsigned last, int flags)
{
	int result = 0;
	unsigned end = last < DESCRIPTORS ? last : DESCRIPTORS - 1;
	for (unsigned i = first; i <= end && !result; i++)
		if (descriptors_are_private(i)) {
			result = i > first ? REAL(close_range)(first, i - 1, flags) : 0;
			first = i + 1;
		}
	return result || first > last ? result : REAL(close_range)(first, last, flags);
}

static int close_all_but_ours(unsigned first, unsigned last, int flags)
{
	unsigned files = 0;
	for (unsigned i = first; i <= last && i < DESCRIPTORS; i++) {
		int file = descriptors_are_private(i) ? NO_FILE : forget(i);
		files |= file == NO_FILE ? 0 : 1u << file;
	}
	int result = close_numbers(first, last, flags);
	for (int i = 0; i < MOST_FILES; i++)
		close_file(files >> i & 1 ? i : NO_FILE);
	return result;
}

PUBLIC int close_range(unsigned first, unsigned last, int flags)
{
	if (flags & CLOSE_RANGE_CLOEXEC || first > last || !descriptors_are_ours())
		return REAL(close_range)(first, last, flags);
	return close_all_but_ours(first, last, flags);
}

PUBLIC void closefrom(int first)
{
	if (!descriptors_are_ours() || close_all_but_ours(first < 0 ? 0 : first, UINT_MAX, 0))
		REAL(closefrom)(first);
}

/* Notes that a descriptor was made from another one. */
static int doubled(int old, int new)
{
	if (new < 0 || new == old || !descriptors_are_ours())
		return new;
	close_file(forget(new));
	descriptors_double(old, new);
	return new;
}

/* Makes a number free for another file: if this library has it, its own descriptor moves. */
static void make_way(int descriptor)
{
	if (!descriptors_are_private(descriptor) || !descriptors_are_ours())
		return;
	device_enter();
	descriptors_make_way(descriptor);
	device_leave();
}

PUBLIC int dup(int old)
{
	return doubled(old, REAL(dup)(old));
}

PUBLIC int dup2(int old, int new)
{
	make_way(new);
	return doubled(old, REAL(dup2)(old, new));
}

PUBLIC int dup3(int old, int new, int flags)
{
	make_way(new);
	return doubled(old, REAL(dup3)(old, new, flags));
}

/* Returns what a call of fcntl is answered that asks for flags or has set some. The kernel's flags are those of the socket. */
static int flags_of(int descriptor, int what, int result)
{
	int file = result >= 0 && (what == F_GETFL || what == F_SETFL) ? descriptors_file(descriptor) : NO_FILE;
	if (file == NO_FILE)
		return result;
	if (what == F_SETFL)
		descriptors_note_flags(descriptor);
	return what == F_GETFL ? (result & ~O_ACCMODE) | LARGE_FILE | device->file[file].mode | device->file[file].flags : result;
}

/* Sets or returns the signal that a client wants of a file of the device. The kernel's is the mark of such files. */
static int signal_of(int file, int what, long wanted)
{
	if (what == F_GETSIG)
		return device->file[file].signal;
	if (wanted < 0 || wanted >= NSIG)
		return names_answer(-EINVAL);
	device->file[file].signal = wanted;
	return 0;
}

#define FCNTL(name) \
	PUBLIC int name(int descriptor, int what, ...) \
	{ \
		va_list values; \
		va_start(values, what); \
		void *argument = va_arg(values, void *); \
		va_end(values); \
		int file = what == F_GETSIG || what == F_SETSIG ? descriptors_file(descriptor) : NO_FILE; \
		if (file != NO_FILE) \
			return signal_of(file, what, (long)argument); \
		int result = REAL(name)(descriptor, what, argument); \
		if (what == F_DUPFD || what == F_DUPFD_CLOEXEC) \
			return doubled(descriptor, result); \
		return flags_of(descriptor, what, result); \
	}

FCNTL(fcntl)
FCNTL(fcntl64)

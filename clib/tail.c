/*
 * The end of a record, in memory. A system call for the lines of each call would take a third of a read of one sample. So
 * there is room behind the lines: a comment of blanks, and behind the comment the last line, which says that the record is
 * whole. This part of the file is mapped, and lines are put into the comment. First all of a line is put there but its first
 * byte, so that it's still a part of the comment, and then that byte. So the record is valid at each moment, also if the client
 * is killed.
 *
 * A store into mapped memory that can't be done ends the client. So the room is written first, which takes its place on the
 * disk, and only file systems are mapped on which it keeps that place. All of this is called within the device.
 */
#define _GNU_SOURCE
#include "device.h"
#include "server.h"
#include <errno.h>
#include <string.h>
#include <sys/mman.h>
#include <sys/syscall.h>
#include <sys/vfs.h>
#include <linux/magic.h>
#include <unistd.h>

#define XFS_MAGIC 0x58465342
#define LENGTH_OF_WHOLE (sizeof WHOLE - 1)
/* bytes of the room that is made, and of the comment that is left at least: its first and its last byte */
#define ROOM 16384
#define LEAST 2

/* what this process has mapped, and where that starts and ends in the file */
static char *window;
static uint64_t window_start, window_end;

/* Called in a child made by fork. Another thread may have been about to map the next room, so what was mapped isn't known. */
void tail_begin_child(void)
{
	window = NULL;
}

/* Returns whether a file may be mapped: on its file system, what was written once keeps its place. */
int tail_can_map(int descriptor)
{
	struct statfs state;
	if (fstatfs(descriptor, &state))
		return 0;
	return state.f_type == EXT4_SUPER_MAGIC || state.f_type == TMPFS_MAGIC || state.f_type == XFS_MAGIC;
}

static int write_all(int descriptor, const char *text, size_t length, uint64_t at)
{
	for (size_t done = 0; done < length;) {
		long count = syscall(SYS_pwrite64, descriptor, text + done, length - done, at + done);
		if (count <= 0)
			return count ? errno : ENOSPC;
		done += count;
	}
	return 0;
}

/* Makes room behind the lines. Returns 0, or an error number. */
static int make_room(int descriptor)
{
	static char text[ROOM];
	memset(text, ' ', sizeof text);
	*text = '#';
	memcpy(text + sizeof text - LENGTH_OF_WHOLE - 1, "\n" WHOLE, LENGTH_OF_WHOLE + 1);
	int error = write_all(descriptor, text, sizeof text, device->record_length);
	/* what was written of it is taken away by tail_end */
	device->record_end = device->record_length + (error ? 1 : sizeof text - LENGTH_OF_WHOLE);
	return error;
}

/* Maps the room, which another process may have made. Returns whether it is mapped. */
static int map_room(int descriptor)
{
	if (window && device->record_end <= window_end && device->record_length >= window_start)
		return 1;
	uint64_t page = sysconf(_SC_PAGESIZE), end = (device->record_end + page - 1) / page * page;
	if (window)
		munmap(window, window_end - window_start);
	window_start = device->record_length / page * page;
	window_end = end;
	void *place = mmap(NULL, window_end - window_start, PROT_READ | PROT_WRITE, MAP_SHARED, descriptor, window_start);
	window = place == MAP_FAILED ? NULL : place;
	return window != NULL;
}

/* Puts a line in place of the start of the comment, which goes on behind it. */
static void put_line(const char *text, size_t length)
{
	char *at = window + (device->record_length - window_start);
	at[length] = '#';
	memcpy(at + 1, text + 1, length - 1);
	__atomic_signal_fence(__ATOMIC_SEQ_CST);
	__atomic_store_n(at, *text, __ATOMIC_RELEASE);
	device->record_length += length;
}

/* Puts lines behind all others. Returns 0, or an error number: then none is there. */
int tail_put(int descriptor, const char *lines, size_t length)
{
	if (length > ROOM / 2)
		return EFBIG;
	int error = device->record_length + length + LEAST > device->record_end ? make_room(descriptor) : 0;
	if (error || !map_room(descriptor))
		return error ? error : ENOMEM;
	for (const char *end = lines + length, *next; lines < end; lines = next) {
		next = (const char *)memchr(lines, '\n', end - lines) + 1;
		put_line(lines, next - lines);
	}
	return 0;
}

/* Takes the room away: the last line comes behind the lines. Returns 0, or an error number. */
int tail_end(int descriptor)
{
	if (device->record_end <= device->record_length)
		return 0;
	device->record_end = device->record_length;
	int error = write_all(descriptor, WHOLE, LENGTH_OF_WHOLE, device->record_length);
	return !error && ftruncate(descriptor, device->record_length + LENGTH_OF_WHOLE) ? errno : error;
}

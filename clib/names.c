/*
 * The C library's names that a client calls with a descriptor of the device. Each call of another file goes on to the
 * library.
 */
#define _GNU_SOURCE
#include "descriptors.h"
#include "device.h"
#include "names.h"
#include "server.h"
#include <dlfcn.h>
#include <errno.h>
#include <fcntl.h>
#include <linux/fs.h>
#include <pthread.h>
#include <stdarg.h>
#include <sys/ioctl.h>
#include <sys/mman.h>
#include <sys/uio.h>
#include <unistd.h>

/* how much memory a process has room for */
#define MOST_MAPPED ((size_t)1 << 47)

int names_file(int descriptor)
{
	return descriptors_file(descriptor);
}

/* A result of the device as a call of the library answers it. */
long names_answer(long result)
{
	if (result >= 0)
		return result;
	errno = -result;
	return -1;
}

/* Whether a request is one that the kernel answers itself, before it asks the driver of a file. */
static int is_of_any_file(unsigned long request)
{
	return request == FIONBIO || request == FIOASYNC || request == FIOCLEX || request == FIONCLEX || request == FIGETBSZ;
}

static int control(int file, unsigned long request, void *argument)
{
	unsigned files = 1u << file;
	int result;
	if (!device_begin_call(file))
		return -EBADF;
	pthread_cleanup_push(device_end_calls, &files);
	result = device_ioctl(file, request, argument);
	pthread_cleanup_pop(0);
	device_end_call(file);
	return result;
}

PUBLIC int ioctl(int descriptor, unsigned long request, ...)
{
	va_list values;
	va_start(values, request);
	void *argument = va_arg(values, void *);
	va_end(values);
	int file = names_file(descriptor);
	if (file == NO_FILE || is_of_any_file(request)) {
		int result = REAL(ioctl)(descriptor, request, argument);
		if (file != NO_FILE)
			descriptors_note_flags(descriptor);
		return result;
	}
	return names_answer(control(file, request, argument));
}

/* Returns whether bytes end where no client has memory. The kernel looks at that before it moves any. */
static int ends_beyond(const void *bytes, size_t count)
{
	return count >= MOST_MAPPED || (uintptr_t)bytes >= MOST_MAPPED - count;
}

/* Reads or writes as one call. A file that was opened for one of them alone can't do the other. */
static ssize_t move(int file, int writes, void *bytes, size_t count)
{
	unsigned files = 1u << file;
	ssize_t result;
	pthread_testcancel();
	int mode = device->file[file].mode;
	if (mode != O_RDWR && mode != (writes ? O_WRONLY : O_RDONLY))
		return -EBADF;
	if (ends_beyond(bytes, count))
		return -EFAULT;
	if (!device_begin_call(file))
		return -EBADF;
	pthread_cleanup_push(device_end_calls, &files);
	time_call();
	int waits = !device->file[file].never_waits;
	result = writes ? device_write(file, bytes, count, waits) : device_read(file, bytes, count, waits);
	pthread_cleanup_pop(0);
	device_end_call(file);
	return result;
}

PUBLIC ssize_t read(int descriptor, void *to, size_t bytes)
{
	int file = names_file(descriptor);
	if (timers_are_read(descriptor))
		return names_answer(timers_read(descriptor, to, bytes));
	if (file == NO_FILE)
		return rings_stand_for(descriptor) ? rings_read(to, bytes) : REAL(read)(descriptor, to, bytes);
	return names_answer(move(file, 0, to, bytes));
}

PUBLIC ssize_t __read_chk(int descriptor, void *to, size_t bytes, size_t room)
{
	return read(descriptor, to, bytes < room ? bytes : room);
}

PUBLIC ssize_t write(int descriptor, const void *from, size_t bytes)
{
	int file = names_file(descriptor);
	if (file == NO_FILE)
		return rings_stand_for(descriptor) ? names_answer(rings_write(from, bytes)) : REAL(write)(descriptor, from, bytes);
	return names_answer(move(file, 1, (void *)from, bytes));
}

/* Reads and writes at a place. The device has none, as for the kernel's core of Comedi, which looks only at the sign. */
#define AT_PLACE(name, chk, plain) \
	PUBLIC ssize_t name(int descriptor, void *to, size_t bytes, off_t place) \
	{ \
		if (names_file(descriptor) == NO_FILE) \
			return REAL(name)(descriptor, to, bytes, place); \
		return place < 0 ? names_answer(-EINVAL) : read(descriptor, to, bytes); \
	} \
	PUBLIC ssize_t chk(int descriptor, void *to, size_t bytes, off_t place, size_t room) \
	{ \
		return name(descriptor, to, bytes < room ? bytes : room, place); \
	} \
	PUBLIC ssize_t plain(int descriptor, const void *from, size_t bytes, off_t place) \
	{ \
		if (names_file(descriptor) == NO_FILE) \
			return REAL(plain)(descriptor, from, bytes, place); \
		return place < 0 ? names_answer(-EINVAL) : write(descriptor, from, bytes); \
	}

AT_PLACE(pread, __pread_chk, pwrite)
AT_PLACE(pread64, __pread64_chk, pwrite64)

/* Returns why pieces can't be moved, or 0. */
static int check_pieces(const struct iovec *pieces, int count)
{
	if (count < 0 || count > IOV_MAX)
		return -EINVAL;
	if (!memory_is_there(pieces, count * sizeof *pieces))
		return -EFAULT;
	for (int i = 0; i < count; i++)
		if (pieces[i].iov_len > SSIZE_MAX)
			return -EINVAL;
	for (int i = 0; i < count; i++)
		if (ends_beyond(pieces[i].iov_base, pieces[i].iov_len))
			return -EFAULT;
	return 0;
}

/* Several pieces: one after another, up to the first that isn't whole. */
#define PIECES(name, moves) \
	PUBLIC ssize_t name(int descriptor, const struct iovec *pieces, int count) \
	{ \
		if (names_file(descriptor) == NO_FILE) \
			return REAL(name)(descriptor, pieces, count); \
		int refused = check_pieces(pieces, count); \
		if (refused) \
			return names_answer(refused); \
		ssize_t done = 0; \
		for (int i = 0; i < count; i++) { \
			if (!pieces[i].iov_len) \
				continue; \
			ssize_t result = moves(descriptor, pieces[i].iov_base, pieces[i].iov_len); \
			if (result < 0) \
				return done ? done : result; \
			done += result; \
			if ((size_t)result < pieces[i].iov_len) \
				break; \
		} \
		return done; \
	}

PIECES(readv, read)
PIECES(writev, write)

#define PIECES_AT_PLACE(reads, writes) \
	PUBLIC ssize_t reads(int descriptor, const struct iovec *pieces, int count, off_t place) \
	{ \
		if (names_file(descriptor) == NO_FILE) \
			return REAL(reads)(descriptor, pieces, count, place); \
		return place < 0 ? names_answer(-EINVAL) : readv(descriptor, pieces, count); \
	} \
	PUBLIC ssize_t writes(int descriptor, const struct iovec *pieces, int count, off_t place) \
	{ \
		if (names_file(descriptor) == NO_FILE) \
			return REAL(writes)(descriptor, pieces, count, place); \
		return place < 0 ? names_answer(-EINVAL) : writev(descriptor, pieces, count); \
	}

PIECES_AT_PLACE(preadv, pwritev)
PIECES_AT_PLACE(preadv64, pwritev64)

/* Moves to a place, which is always 0. */
#define SEEK(name, type) \
	PUBLIC type name(int descriptor, type place, int whence) \
	{ \
		if (names_file(descriptor) == NO_FILE) \
			return REAL(name)(descriptor, place, whence); \
		return names_answer(whence < SEEK_SET || whence > SEEK_HOLE ? -EINVAL : 0); \
	}

SEEK(lseek, off_t)
SEEK(lseek64, off64_t)

/* Refuses what the kernel refuses before it asks the driver: a length or a place that no memory has. `whole` is the length in
 * whole pages. */
static int check_map(size_t bytes, size_t whole, off_t offset, size_t page)
{
	if (!bytes || (size_t)offset % page)
		return -EINVAL;
	if (whole < bytes || whole > MOST_MAPPED)
		return -ENOMEM;
	return (uint64_t)offset > UINT64_MAX - whole ? -EOVERFLOW : 0;
}

/* Maps the buffer of the subdevice that read is for, or with PROT_WRITE write. A copy of it has one page at most, since the
 * driver maps page by page. Returns the subdevice. */
static int map_buffer(int file, size_t bytes, int protection, int flags, off_t offset)
{
	size_t page = sysconf(_SC_PAGESIZE), whole = (bytes + page - 1) / page * page;
	int mode = device->file[file].mode, writes = (protection & PROT_WRITE) != 0, is_copy = (flags & MAP_TYPE) == MAP_PRIVATE;
	int result = check_map(bytes, whole, offset, page);
	if (result)
		return result;
	if (mode == O_WRONLY || mode == O_ACCMODE || (mode == O_RDONLY && writes && !is_copy))
		return -EACCES;
	int number = writes ? device->file[file].write_subdevice : device->file[file].read_subdevice;
	if (number == NO_SUBDEVICE || offset)
		return -EINVAL;
	size_t there = (size_t)device->subdevice[number].buffer * device->subdevice[number].sample_bytes;
	if (whole > (there + page - 1) / page * page)
		return -EFAULT;
	if (is_copy && whole > page)
		return -EINVAL;
	result = buffer_map(file, number);
	return result ? result : number;
}

PUBLIC void *mmap(void *at, size_t bytes, int protection, int flags, int descriptor, off_t offset)
{
	int file = names_file(descriptor);
	if (file == NO_FILE)
		return REAL(mmap)(at, bytes, protection, flags, descriptor, offset);
	device_enter();
	int number = map_buffer(file, bytes, protection, flags, offset);
	device_leave();
	if (number < 0) {
		errno = -number;
		return MAP_FAILED;
	}
	return REAL(mmap)(at, bytes, protection, flags, buffer_memory(), device->subdevice[number].memory_offset);
}

PUBLIC void *mmap64(void *at, size_t bytes, int protection, int flags, int descriptor, off_t offset)
{
	return mmap(at, bytes, protection, flags, descriptor, offset);
}

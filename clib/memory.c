/*
 * The client's memory, as the kernel treats it: a pointer that leads nowhere is answered EFAULT. The kernel itself looks at
 * the pointer: what is copied is written to the file of the device's memory, or read from it.
 *
 * For one sample a read of that file takes too long. So the kernel is asked to write as many bytes of something else to the
 * pointer: of the set of pending signals it writes just as many bytes as are asked for. If it can, the sample is put there.
 */
#define _GNU_SOURCE
#include "device.h"
#include "server.h"
#include <errno.h>
#include <linux/futex.h>
#include <stdint.h>
#include <string.h>
#include <sys/resource.h>
#include <sys/syscall.h>
#include <unistd.h>

/* bytes of the kernel's set of signals */
#define MOST_PROBED 8

static size_t piece_of(size_t bytes)
{
	return bytes < MOST_COPIED ? bytes : MOST_COPIED;
}

int copy_in(void *to, const void *from, size_t bytes)
{
	for (size_t count; bytes; to = (char *)to + count, from = (const char *)from + count, bytes -= count) {
		count = piece_of(bytes);
		if (syscall(SYS_pwrite64, buffer_memory(), from, count, 0) != (long)count)
			return -EFAULT;
		memcpy(to, device->copied, count);
	}
	return 0;
}

/* Returns whether the kernel can write some few bytes to a pointer. It may answer that it can't do so for another reason. */
static int can_write(void *to, size_t bytes)
{
	return bytes && bytes <= MOST_PROBED && !syscall(SYS_rt_sigpending, to, bytes);
}

/* Returns whether the kernel can write events to a pointer. What was there is lost. */
int memory_takes_events(void *to)
{
	int before = errno, takes = can_write(to, MOST_PROBED) || errno != EFAULT;
	errno = before;
	return takes;
}

int copy_out(void *to, const void *from, size_t bytes)
{
	if (can_write(to, bytes)) {
		memcpy(to, from, bytes);
		return 0;
	}
	for (size_t count; bytes; to = (char *)to + count, from = (const char *)from + count, bytes -= count) {
		count = piece_of(bytes);
		memcpy(device->copied, from, count);
		if (syscall(SYS_pread64, buffer_memory(), to, count, 0) != (long)count)
			return -EFAULT;
	}
	return 0;
}

/* Returns whether the kernel can read a word of the client's memory: it compares it with another, and changes nothing. */
static int has_word(uintptr_t at)
{
	void *word = (void *)(at & ~(uintptr_t)3);
	return syscall(SYS_futex, word, FUTEX_CMP_REQUEUE_PRIVATE, 0, 0, word, 0) >= 0 || errno != EFAULT;
}

int memory_is_there(const void *from, size_t bytes)
{
	uintptr_t at = (uintptr_t)from, last = at + bytes - 1, page = sysconf(_SC_PAGESIZE);
	int before = errno, is_there = last >= at;
	if (!bytes)
		return 1;
	for (; is_there && at <= last; at = (at / page + 1) * page)
		is_there = has_word(at);
	errno = before;
	return is_there;
}

/* Makes a file of the library's own memory as long as it has to be. One that the client's limit of file sizes forbids isn't
 * made, since the attempt would end the client (SIGXFSZ). Returns 0, or a negative error number. */
int memory_lengthen(int descriptor, size_t bytes)
{
	struct rlimit most;
	if (!getrlimit(RLIMIT_FSIZE, &most) && most.rlim_cur != RLIM_INFINITY && most.rlim_cur < bytes) {
		message("files may have %llu bytes at most (ulimit -f), and the board's memory needs %zu. Allow more", (unsigned long long)most.rlim_cur, bytes);
		return -EFBIG;
	}
	return descriptor < 0 || ftruncate(descriptor, bytes) ? -ENOMEM : 0;
}

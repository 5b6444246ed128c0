/*
 * Counts the calls of the device file that programs make, for clib/check: loaded before the device. COUNTING names a file
 * that all programs share, in which each call has a place: its name, and how often it was made.
 */
#define _GNU_SOURCE
#include <comedi.h>
#include <dlfcn.h>
#include <fcntl.h>
#include <poll.h>
#include <stdarg.h>
#include <stdint.h>
#include <stdlib.h>
#include <string.h>
#include <sys/epoll.h>
#include <sys/ioctl.h>
#include <sys/mman.h>
#include <sys/select.h>
#include <unistd.h>

#define DESCRIPTORS 1024
/* The function of the library after this one. It's looked for once, since a handler of a signal that comes meanwhile would wait
 * for the lock of that search. */
#define NEXT(name) ({ \
	static __typeof__(&name) next; \
	if (!__atomic_load_n(&next, __ATOMIC_ACQUIRE)) \
		__atomic_store_n(&next, (__typeof__(&name))dlsym(RTLD_NEXT, #name), __ATOMIC_RELEASE); \
	next; \
})

/* the requests in the order of their numbers, the calls of the file, and kinds of instructions */
static const char *const names[] = {
	"DEVCONFIG", "DEVINFO", "SUBDINFO", "CHANINFO", "TRIG", "LOCK", "UNLOCK", "CANCEL", "RANGEINFO", "CMD", "CMDTEST",
	"INSNLIST", "INSN", "BUFCONFIG", "BUFINFO", "POLL", "SETRSUBD", "SETWSUBD",
	"open", "close", "dup", "read", "write", "mmap", "poll", "select", "epoll_wait",
	"INSN_READ", "INSN_WRITE", "INSN_BITS", "INSN_CONFIG", "INSN_GTOD", "INSN_WAIT", "INSN_INTTRIG",
};
#define NAMES (sizeof names / sizeof *names)
#define REQUESTS 18

static const struct {
	unsigned kind;
	const char *name;
} kinds[] = {
	{ INSN_READ, "INSN_READ" }, { INSN_WRITE, "INSN_WRITE" }, { INSN_BITS, "INSN_BITS" }, { INSN_CONFIG, "INSN_CONFIG" },
	{ INSN_GTOD, "INSN_GTOD" }, { INSN_WAIT, "INSN_WAIT" }, { INSN_INTTRIG, "INSN_INTTRIG" },
};

static struct place {
	char name[24];
	uint64_t count;
} *places;
static unsigned char is_device[DESCRIPTORS];

__attribute__((constructor)) static void share_places(void)
{
	const char *path = getenv("COUNTING");
	int file = path ? NEXT(open)(path, O_RDWR | O_CREAT | O_CLOEXEC, 0666) : -1;
	if (file < 0 || ftruncate(file, NAMES * sizeof *places))
		return;
	void *memory = NEXT(mmap)(NULL, NAMES * sizeof *places, PROT_READ | PROT_WRITE, MAP_SHARED, file, 0);
	NEXT(close)(file);
	if (memory == MAP_FAILED)
		return;
	places = memory;
	for (size_t i = 0; i < NAMES; i++)
		strcpy(places[i].name, names[i]);
}

static void count(const char *name)
{
	for (size_t i = 0; places && i < NAMES; i++)
		if (!strcmp(names[i], name))
			__atomic_add_fetch(&places[i].count, 1, __ATOMIC_RELAXED);
}

static int is_ours(int descriptor)
{
	return descriptor >= 0 && descriptor < DESCRIPTORS && is_device[descriptor];
}

static void count_call(int descriptor, const char *name)
{
	if (is_ours(descriptor))
		count(name);
}

static int opened(const char *path, int descriptor)
{
	if (descriptor < 0 || descriptor >= DESCRIPTORS)
		return descriptor;
	is_device[descriptor] = !strncmp(path, "/dev/comedi", 11);
	count_call(descriptor, "open");
	return descriptor;
}

#define OPEN(name) \
	int name(const char *path, int flags, ...) \
	{ \
		va_list values; \
		va_start(values, flags); \
		int mode = flags & O_CREAT || (flags & O_TMPFILE) == O_TMPFILE ? va_arg(values, int) : 0; \
		va_end(values); \
		return opened(path, NEXT(name)(path, flags, mode)); \
	}

OPEN(open)
OPEN(open64)

int close(int descriptor)
{
	count_call(descriptor, "close");
	if (is_ours(descriptor))
		is_device[descriptor] = 0;
	return NEXT(close)(descriptor);
}

int dup(int descriptor)
{
	int twin = NEXT(dup)(descriptor);
	count_call(descriptor, "dup");
	if (twin >= 0 && twin < DESCRIPTORS)
		is_device[twin] = is_ours(descriptor);
	return twin;
}

static void count_kind(unsigned kind)
{
	for (size_t i = 0; i < sizeof kinds / sizeof *kinds; i++)
		if (kinds[i].kind == kind)
			count(kinds[i].name);
}

/* What an instruction is can be looked at where it was done. */
static void count_instructions(unsigned request, const void *argument)
{
	const comedi_insn *one = argument;
	const comedi_insnlist *list = argument;
	if (request == COMEDI_INSN)
		count_kind(one->insn);
	for (unsigned i = 0; request == COMEDI_INSNLIST && i < list->n_insns; i++)
		count_kind(list->insns[i].insn);
}

int ioctl(int descriptor, unsigned long request, ...)
{
	va_list values;
	va_start(values, request);
	void *argument = va_arg(values, void *);
	va_end(values);
	unsigned number = request & 0xff;
	int result = NEXT(ioctl)(descriptor, request, argument);
	if (!is_ours(descriptor) || (request >> 8 & 0xff) != CIO || number >= REQUESTS)
		return result;
	count(names[number]);
	if (result >= 0)
		count_instructions(request, argument);
	return result;
}

ssize_t read(int descriptor, void *to, size_t bytes)
{
	count_call(descriptor, "read");
	return NEXT(read)(descriptor, to, bytes);
}

ssize_t write(int descriptor, const void *from, size_t bytes)
{
	count_call(descriptor, "write");
	return NEXT(write)(descriptor, from, bytes);
}

void *mmap(void *at, size_t bytes, int protection, int flags, int descriptor, off_t offset)
{
	count_call(descriptor, "mmap");
	return NEXT(mmap)(at, bytes, protection, flags, descriptor, offset);
}

int poll(struct pollfd *asked, nfds_t number, int milliseconds)
{
	for (nfds_t i = 0; i < number; i++)
		count_call(asked[i].fd, "poll");
	return NEXT(poll)(asked, number, milliseconds);
}

int select(int number, fd_set *reads, fd_set *writes, fd_set *others, struct timeval *time)
{
	for (int i = 0; i < number && i < FD_SETSIZE; i++)
		if ((reads && FD_ISSET(i, reads)) || (writes && FD_ISSET(i, writes)))
			count_call(i, "select");
	return NEXT(select)(number, reads, writes, others, time);
}

/* A set of the device isn't known here: each wait of a set is counted in a program that has opened the device. */
int epoll_wait(int set, struct epoll_event *events, int most, int milliseconds)
{
	if (memchr(is_device, 1, sizeof is_device))
		count("epoll_wait");
	return NEXT(epoll_wait)(set, events, most, milliseconds);
}

/*
 * Answers in which the kernel's core of Comedi goes ways of its own: what a file may do that was opened for one thing alone,
 * the buffer and the poll of a subdevice without commands, a trigger that nothing waits for, lengths that are too great.
 *
 * On wide.board the lines of subdevice 2 take no commands, and the output has room for 8 words.
 */
#define _GNU_SOURCE
#include "client.h"
#include <fcntl.h>
#include <limits.h>
#include <sys/ioctl.h>
#include <sys/mman.h>
#include <sys/uio.h>

static comedi_t *device;
static int descriptor;
static char bytes[64];
static void *volatile nowhere = (void *)8;
/* counts that the compiler doesn't see */
static volatile int below_none = -1, too_many = IOV_MAX + 1;

static void open_for_one_thing(void)
{
	int reads = open("/dev/comedi0", O_RDONLY), writes = open("/dev/comedi0", O_WRONLY);
	printf("modes:%s%s%s\n", (fcntl(reads, F_GETFL) & O_ACCMODE) == O_RDONLY ? " O_RDONLY" : "",
		(fcntl(writes, F_GETFL) & O_ACCMODE) == O_WRONLY ? " O_WRONLY" : "",
		(fcntl(descriptor, F_GETFL) & O_ACCMODE) == O_RDWR ? " O_RDWR" : "");
	report("a write of one that reads", write(reads, bytes, 2));
	report("a read of one that writes", read(writes, bytes, 2));
	report("a map to write of one that reads", mmap(NULL, 4096, PROT_READ | PROT_WRITE, MAP_SHARED, reads, 0) == MAP_FAILED ? -1 : 0);
	report("a map of one that writes", mmap(NULL, 4096, PROT_READ, MAP_SHARED, writes, 0) == MAP_FAILED ? -1 : 0);
	close(reads);
	close(writes);
}

static void ask_lengths(void)
{
	static lsampl_t data[70000];
	comedi_insn one = { .insn = INSN_READ, .n = 65537, .data = data, .subdev = 0 };
	comedi_insnlist list = { 1, &one };
	comedi_krange ranges[32];
	comedi_rangeinfo asked = { 16 << 24 | 1, ranges };
	struct iovec piece = { bytes, 2 };
	report("too many values", ioctl(descriptor, COMEDI_INSN, &one));
	report("in a list", ioctl(descriptor, COMEDI_INSNLIST, &list));
	one = (comedi_insn){ .insn = INSN_WRITE, .n = 0, .data = data, .subdev = 0 };
	report("no value to an input", ioctl(descriptor, COMEDI_INSN, &one));
	report("ranges of subdevice 16", ioctl(descriptor, COMEDI_RANGEINFO, &asked));
	asked.range_type = 200 << 16 | 1;
	report("ranges of a channel that isn't there", ioctl(descriptor, COMEDI_RANGEINFO, &asked));
	report("pieces below none", readv(descriptor, &piece, below_none));
	report("too many pieces", writev(descriptor, &piece, too_many));
	report("bytes below none", read(descriptor, bytes, below_none));
	report("more than the buffer", mmap(NULL, 1 << 20, PROT_READ, MAP_SHARED, descriptor, 0) == MAP_FAILED ? -1 : 0);
}

static void map(const char *name, int file, size_t length, int protection, int flags, off_t offset)
{
	void *place = mmap(NULL, length, protection, flags, file, offset);
	report(name, place == MAP_FAILED ? -1 : 0);
	if (place != MAP_FAILED)
		munmap(place, length);
}

static void ask_maps(void)
{
	int reads = open("/dev/comedi0", O_RDONLY);
	map("a map", descriptor, 8192, PROT_READ, MAP_SHARED, 0);
	map("a map of nothing", descriptor, 0, PROT_READ, MAP_SHARED, 0);
	map("a copy of a page", descriptor, 4096, PROT_READ, MAP_PRIVATE, 0);
	map("a copy of two", descriptor, 8192, PROT_READ, MAP_PRIVATE, 0);
	map("a copy to write of one that reads", reads, 4096, PROT_READ | PROT_WRITE, MAP_PRIVATE, 0);
	map("a map from the second page on", descriptor, 4096, PROT_READ, MAP_SHARED, 4096);
	map("a map from within a page on", descriptor, 4096, PROT_READ, MAP_SHARED, 100);
	map("a map before the start", descriptor, 4096, PROT_READ, MAP_SHARED, -4096);
	map("a map of more than there is", descriptor, (size_t)0 - 4096, PROT_READ, MAP_SHARED, 0);
	close(reads);
}

/* Routes, which comedilib's header hasn't: one of the special instructions, and its questions. */
static void ask_routes(void)
{
	lsampl_t data[3] = { 3, 10, 0 };
	comedi_insn routes = { .insn = INSN_CONFIG | INSN_MASK_SPECIAL, .n = 2, .data = data };
	report("routes", ioctl(descriptor, COMEDI_INSN, &routes));
	printf("their number: %u\n", data[1]);
	data[0] = 1;
	routes.n = 3;
	report("a route", ioctl(descriptor, COMEDI_INSN, &routes));
}

static void ask_without_commands(void)
{
	comedi_bufconfig size = { .subdevice = 2, .size = 7 };
	report("a buffer of none", ioctl(descriptor, COMEDI_BUFCONFIG, &size));
	printf("its size: %u\n", size.size);
	report("poll of none", ioctl(descriptor, COMEDI_POLL, 2));
	report("poll of no subdevice", ioctl(descriptor, COMEDI_POLL, 99));
}

/* A buffer that is mapped keeps its size. */
static void ask_mapped(void)
{
	comedi_bufconfig size = { .subdevice = 0, .size = 2 };
	void *place = mmap(NULL, 4096, PROT_READ, MAP_SHARED, descriptor, 0);
	report("a smaller buffer, mapped", ioctl(descriptor, COMEDI_BUFCONFIG, &size));
	munmap(place, 4096);
	report("a smaller buffer, not mapped", ioctl(descriptor, COMEDI_BUFCONFIG, &size));
}

static void ask_busy(void)
{
	comedi_t *other = open_board();
	comedi_bufconfig size = { .subdevice = 0, .size = 2 };
	report("a smaller buffer", ioctl(descriptor, COMEDI_BUFCONFIG, &size));
	report("command", give_command(device, 0, TRIG_NOW, MILLISECOND, 100));
	size = (comedi_bufconfig){ .subdevice = 0, .size = 2 };
	report("a smaller buffer", ioctl(descriptor, COMEDI_BUFCONFIG, &size));
	report("poll of another one's", ioctl(comedi_fileno(other), COMEDI_POLL, 0));
	comedi_cancel(device, 0);
	report("lock", comedi_lock(device, 1));
	lsampl_t zero = 0;
	comedi_insn trigger = { .insn = INSN_INTTRIG, .n = 1, .data = &zero, .subdev = 1 };
	report("a trigger for nothing", ioctl(comedi_fileno(other), COMEDI_INSN, &trigger));
	comedi_unlock(device, 1);
	comedi_close(other);
}

static void write_from_nowhere(void)
{
	report("idle, from nowhere", write(descriptor, nowhere, 2));
	report("command", give_command(device, 1, TRIG_INT, MILLISECOND, 0));
	report("armed, from nowhere", write(descriptor, nowhere, 2));
	fcntl(descriptor, F_SETFL, O_NONBLOCK);
	report("all words", write(descriptor, bytes, 64));
	report("full, from nowhere", write(descriptor, nowhere, 2));
	comedi_internal_trigger(device, 1, 0);
	usleep(50000);
	report("underrun, from nowhere", write(descriptor, nowhere, 2));
	report("and then", write(descriptor, nowhere, 2));
}

int main(void)
{
	device = open_board();
	descriptor = comedi_fileno(device);
	open_for_one_thing();
	ask_lengths();
	ask_maps();
	ask_routes();
	ask_without_commands();
	ask_mapped();
	ask_busy();
	write_from_nowhere();
	comedi_close(device);
	return 0;
}

/*
 * What a file of the kernel does before its driver is asked, and bytes that are no whole samples.
 *
 * On wide.board sample k of the first command comes at 3,000 + k * 1,000,000 ns and has the code k, in two bytes. Reads of
 * three bytes and of one take apart what is there, and so do counts that are marked as read. An output takes bytes in the
 * same way, up to the last of its eight words.
 */
#define _GNU_SOURCE
#include "client.h"
#include <fcntl.h>
#include <signal.h>
#include <sys/ioctl.h>
#include <sys/mman.h>

static comedi_t *device;
static int descriptor;

static void read_bytes(size_t most)
{
	unsigned char bytes[64];
	ssize_t count = read(descriptor, bytes, most);
	printf("read of %zu: %zd", most, count);
	for (ssize_t i = 0; i < count; i++)
		printf(" %02x", bytes[i]);
	printf("%s\n", count < 0 ? strerror(errno) : "");
}

static void read_apart(void)
{
	report("command", give_command(device, 0, TRIG_NOW, MILLISECOND, 4));
	usleep(10000);
	read_bytes(3);
	report("contents", comedi_get_buffer_contents(device, 0));
	read_bytes(3);
	read_bytes(1);
	read_bytes(64);
	read_bytes(1);
	report("command", give_command(device, 0, TRIG_NOW, 10 * MILLISECOND, 3));
	usleep(25000);
	report("marked", comedi_mark_buffer_read(device, 0, 1));
	report("contents", comedi_get_buffer_contents(device, 0));
	report("marked", comedi_mark_buffer_read(device, 0, 2));
	read_bytes(64);
	read_bytes(1);
}

static void write_bytes(size_t count, char first)
{
	char bytes[64];
	for (size_t i = 0; i < count; i++)
		bytes[i] = (first + i) % 2 ? 0 : first + i;
	printf("write of %zu", count);
	report("", write(descriptor, bytes, count));
}

static void write_apart(void)
{
	unsigned written = 0;
	write_bytes(1, 0);
	report("command", give_command(device, 1, TRIG_INT, MILLISECOND, 8));
	write_bytes(3, 0);
	write_bytes(1, 3);
	write_bytes(5, 4);
	report("written", comedi_get_buffer_write_count(device, 1, &written) < 0 ? -1 : (long)written);
	write_bytes(20, 9);
	write_bytes(1, 16);
	report("trigger", comedi_internal_trigger(device, 1, 0));
	usleep(20000);
	write_bytes(1, 0);
}

/* Words that are marked in parts, by a map and by writes. Word 0 is 5 + 0 * 256, and word 1 is 7. */
static void mark_apart(void)
{
	unsigned written = 0;
	unsigned char *map = mmap(NULL, 4096, PROT_READ | PROT_WRITE, MAP_SHARED, descriptor, 0);
	report("command", give_command(device, 1, TRIG_INT, MILLISECOND, 2));
	memcpy(map, (unsigned char[]){ 5, 0, 7, 0 }, 4);
	report("marked", comedi_mark_buffer_written(device, 1, 3));
	report("written", comedi_get_buffer_write_count(device, 1, &written) < 0 ? -1 : (long)written);
	write_bytes(1, 0);
	report("marked", comedi_mark_buffer_written(device, 1, 13));
	report("trigger", comedi_internal_trigger(device, 1, 0));
	usleep(20000);
	write_bytes(1, 0);
	munmap(map, 4096);
}

/* An underrun, which a write of no bytes reports. */
static void write_nothing(void)
{
	report("command", give_command(device, 1, TRIG_INT, MILLISECOND, 8));
	write_bytes(2, 0);
	report("trigger", comedi_internal_trigger(device, 1, 0));
	usleep(20000);
	write_bytes(0, 0);
	write_bytes(0, 0);
}

static void set_flags(void)
{
	int yes = 1, no = 0;
	report("FIONBIO", ioctl(descriptor, FIONBIO, &yes));
	report("FIOASYNC", ioctl(descriptor, FIOASYNC, &yes));
	report("FIOCLEX", ioctl(descriptor, FIOCLEX));
	int flags = fcntl(descriptor, F_GETFL);
	printf("flags:%s%s%s\n", flags & O_NONBLOCK ? " O_NONBLOCK" : "", flags & O_ASYNC ? " O_ASYNC" : "",
		fcntl(descriptor, F_GETFD) & FD_CLOEXEC ? " FD_CLOEXEC" : "");
	report("FIOASYNC", ioctl(descriptor, FIOASYNC, &no));
	report("FIONBIO of nothing", ioctl(descriptor, FIONBIO, NULL));
	report("F_GETSIG", fcntl(descriptor, F_GETSIG));
	report("F_SETSIG", fcntl(descriptor, F_SETSIG, SIGUSR1));
	printf("F_GETSIG: %s\n", fcntl(descriptor, F_GETSIG) == SIGUSR1 ? "SIGUSR1" : "another signal");
	report("F_SETSIG of no signal", fcntl(descriptor, F_SETSIG, 100));
}

/* A command in memory that is only read, and what comes back of one. */
static void give_commands(void)
{
	static unsigned list[1];
	static lsampl_t data[1];
	comedi_cmd *command = mmap(NULL, 4096, PROT_READ | PROT_WRITE, MAP_PRIVATE | MAP_ANONYMOUS, -1, 0);
	*command = (comedi_cmd){ .subdev = 1, .start_src = TRIG_INT, .scan_begin_src = TRIG_TIMER, .scan_begin_arg = MILLISECOND, .convert_src = TRIG_NOW,
		.scan_end_src = TRIG_COUNT, .scan_end_arg = 1, .stop_src = TRIG_COUNT, .stop_arg = 1, .chanlist = list, .chanlist_len = 1 };
	report("a command", ioctl(descriptor, COMEDI_CMD, command));
	printf("its flags: %u\n", command->flags);
	report("cancel", comedi_cancel(device, 1));
	mprotect(command, 4096, PROT_READ);
	report("one that is only read", ioctl(descriptor, COMEDI_CMD, command));
	report("again", ioctl(descriptor, COMEDI_CMD, command));
	report("cancel", comedi_cancel(device, 1));
	mprotect(command, 4096, PROT_READ | PROT_WRITE);
	command->scan_begin_arg = 1001;
	command->data = (sampl_t *)data;
	report("one that its test changes", ioctl(descriptor, COMEDI_CMD, command));
	printf("its period: %u, its data: %s\n", command->scan_begin_arg, command->data ? "kept" : "none");
	command->scan_begin_arg = 1001;
	mprotect(command, 4096, PROT_READ);
	report("one that its test can't change", ioctl(descriptor, COMEDI_CMD, command));
}

int main(void)
{
	device = open_board();
	descriptor = comedi_fileno(device);
	set_flags();
	read_apart();
	write_apart();
	mark_apart();
	write_nothing();
	give_commands();
	comedi_close(device);
	return 0;
}

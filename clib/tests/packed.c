/*
 * A scan of 20 digital lines is two samples of 16 bits, as in the kernel: bit K is the K-th entry of the list. It is there
 * as a whole or not at all.
 *
 * On digital.board line C is bit C of the number of 100 us that have passed, and scan k comes at 3,000 + k * 100,000 ns
 * after the first command's call at 3,000. The list has the lines 1, 0, 2 to 15, and 0 to 3 once more. So the first sample
 * of scan k is k with its two lowest bits exchanged, and the second one the lowest four bits of k:
 *
 *     k        0  1  2  3  4  5  6  7  8  9 10 11 12 13 14 15
 *     first    0  2  1  3  4  6  5  7  8 10  9 11 12 14 13 15
 *     second   0  1  2  3  4  5  6  7  8  9 10 11 12 13 14 15
 */
#include "client.h"
#include <fcntl.h>
#include <poll.h>
#include <sys/mman.h>
#include <time.h>

#define LINES 20
#define PERIOD 100000

static comedi_t *device;

static int command_of(unsigned subdevice, unsigned convert, unsigned count)
{
	static unsigned list[LINES] = { 1, 0 };
	comedi_cmd command;
	for (unsigned i = 2; i < LINES; i++)
		list[i] = i % 16;
	memset(&command, 0, sizeof command);
	command.subdev = subdevice;
	command.start_src = subdevice ? TRIG_INT : TRIG_NOW;
	command.scan_begin_src = TRIG_TIMER;
	command.scan_begin_arg = PERIOD;
	command.convert_src = convert ? TRIG_TIMER : TRIG_NOW;
	command.convert_arg = convert;
	command.scan_end_src = TRIG_COUNT;
	command.scan_end_arg = LINES;
	command.stop_src = count ? TRIG_COUNT : TRIG_NONE;
	command.stop_arg = count;
	command.chanlist = list;
	command.chanlist_len = LINES;
	return comedi_command(device, &command);
}

static void report_bits(const char *what, unsigned subdevice, unsigned base)
{
	unsigned bits = 0;
	int result = comedi_dio_bitfield2(device, subdevice, 0, &bits, base);
	if (result < 0)
		printf("%s: %s\n", what, strerror(comedi_errno()));
	else
		printf("%s: %x\n", what, bits);
}

/* Bytes of the buffer: those that are there, and the counts and places since the command. */
static void report_buffer(void)
{
	unsigned taken = 0, written = 0;
	comedi_get_buffer_read_count(device, 0, &taken);
	comedi_get_buffer_write_count(device, 0, &written);
	printf("read %u, written %u, ", taken, written);
	printf("contents %d, ", comedi_get_buffer_contents(device, 0));
	printf("poll %d, at %d\n", comedi_poll(device, 0), comedi_get_buffer_offset(device, 0));
}

/* The scans 0 to 5, by reads of a part of a scan, and marks of one. The lines of a subdevice whose command runs can't be
 * asked for: EBUSY, but EINVAL from a line on that isn't there. */
static void read_parts(void)
{
	if (report("command", command_of(0, 0, 6)))
		return;
	read_and_print(device, 8);
	usleep(250);
	report_buffer();
	read_and_print(device, 1);
	report_buffer();
	report("mark a sample", comedi_mark_buffer_read(device, 0, 2));
	read_and_print(device, 1);
	report_bits("the lines of its own", 0, 0);
	report_bits("from one that isn't there", 0, LINES);
	report_bits("lines of others", 2, 0);
	read_and_print(device, 8);
	report("mark all", comedi_mark_buffer_read(device, 0, 100));
	read_and_print(device, 1);
	read_and_print(device, 8);
	read_and_print(device, 8);
	read_and_print(device, 8);
	read_and_print(device, 8);
	report_bits("the lines after it, from 2 on", 0, 2);
}

/* Conversions each 4 us: the last entry comes 76 us after the first, and the scan is there with it. */
static void read_late(void)
{
	struct pollfd asked = { comedi_fileno(device), POLLIN, 0 };
	if (report("command", command_of(0, 4000, 2)))
		return;
	report("poll of no time", poll(&asked, 1, 0));
	usleep(65);
	report("nothing", comedi_get_buffer_contents(device, 0));
	report("poll", poll(&asked, 1, -1));
	report("a scan", comedi_get_buffer_contents(device, 0));
	report("cancel", comedi_cancel(device, 0));
}

/* The buffer has room for 110 entries: 5 scans, and a half that nobody gets. */
static void lose_a_part(void)
{
	sampl_t samples[40];
	struct pollfd asked = { comedi_fileno(device), POLLIN, 0 };
	if (report("command", command_of(0, 0, 0)))
		return;
	usleep(2000);
	report("contents", comedi_get_buffer_contents(device, 0));
	report("read 9", read(comedi_fileno(device), samples, 18));
	report("poll", poll(&asked, 1, 0));
	report("read 1", read(comedi_fileno(device), samples, 80));
	report("poll", poll(&asked, 1, 0));
	report("read", read(comedi_fileno(device), samples, 80));
	if (report("command", command_of(0, 0, 0)))
		return;
	usleep(2000);
	report("mark", comedi_mark_buffer_read(device, 0, 100));
	report("mark", comedi_mark_buffer_read(device, 0, 100));
}

/* A buffer that is mapped. What a read has left of a scan stands in it, too. The command is called at 4,596,000 ns, so its
 * scans are those of 45 to 48: 46 13, 45 14, 47 15, 48 0. */
static void map_buffer(void)
{
	int size = comedi_get_buffer_size(device, 0);
	report("buffer", size);
	if (report("command", command_of(0, 0, 4)))
		return;
	usleep(350);
	read_and_print(device, 3);
	sampl_t *samples = mmap(NULL, size, PROT_READ, MAP_SHARED, comedi_fileno(device), 0);
	if (report("map", samples == MAP_FAILED ? -1 : 0))
		return;
	report_buffer();
	printf("memory: %u %u %u %u %u\n", samples[3], samples[4], samples[5], samples[6], samples[7]);
	report("mark 2", comedi_mark_buffer_read(device, 0, 4));
	read_and_print(device, 2);
	report_buffer();
	report("mark 1", comedi_mark_buffer_read(device, 0, 2));
	report("mark", comedi_mark_buffer_read(device, 0, 2));
}

/* Words of an output, of which four bits count in the second sample of a scan. There is room for 5 scans; after 150 us two
 * are out, and the command has four. */
static void write_words(void)
{
	static const sampl_t words[12] = { 0x0001, 0x0008, 0x8000, 0xfff5, 0x1234, 0x000a };
	int descriptor = comedi_fileno(device);
	if (report("command", command_of(1, 0, 4)))
		return;
	fcntl(descriptor, F_SETFL, O_NONBLOCK);
	report("write 3", write(descriptor, words, 6));
	report("contents", comedi_get_buffer_contents(device, 1));
	report("write 3", write(descriptor, words + 3, 6));
	report("write 12", write(descriptor, words, 24));
	report("write 1", write(descriptor, words, 2));
	report("trigger", comedi_internal_trigger(device, 1, 0));
	usleep(150);
	report("contents", comedi_get_buffer_contents(device, 1));
	usleep(1000);
	report("write after the end", write(descriptor, words, 2));
	report("write without a command", write(descriptor, words, 2));
}

int main(void)
{
	device = open_board();
	read_parts();
	read_late();
	lose_a_part();
	map_buffer();
	write_words();
	comedi_close(device);
	return 0;
}

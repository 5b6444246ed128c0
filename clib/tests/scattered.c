/*
 * Packed scans, read by random calls: `scattered [COMMANDS [SEED]]`. Each command has another list, other times and another
 * number of scans, and the buffer is mapped after half of them. Each sample is compared with what the kernel's rule makes of
 * the lines of digital.board: line C is bit C of the number of 100 us that have passed.
 */
#include "client.h"
#include <fcntl.h>
#include <stdint.h>
#include <sys/mman.h>

#define LINES 20
#define ENTRIES 50
#define PLACES 110
#define BITS 16

static comedi_t *device;
static const sampl_t *map;
static uint64_t state;
/* the command, when it began, and how many samples are taken */
static comedi_cmd command;
static unsigned list[ENTRIES], taken;
static uint64_t start;
static long samples, wrong;

static unsigned below(unsigned bound)
{
	state = state * 6364136223846793005ull + 1442695040888963407ull;
	return (state >> 33) % bound;
}

static unsigned samples_of_scan(void)
{
	return (command.chanlist_len + BITS - 1) / BITS;
}

static unsigned wanted(unsigned place)
{
	unsigned scan = place / samples_of_scan(), first = place % samples_of_scan() * BITS, sample = 0;
	for (unsigned bit = 0; bit < BITS && first + bit < command.chanlist_len; bit++) {
		uint64_t time = start + (uint64_t)scan * command.scan_begin_arg + (uint64_t)(first + bit) * command.convert_arg;
		sample |= (unsigned)(time / 100000 >> list[first + bit] & 1) << bit;
	}
	return sample;
}

static void compare(unsigned place, unsigned sample)
{
	samples++;
	if (sample != wanted(place) && ++wrong <= 10)
		printf("sample %u is %u, not %u\n", place, sample, wanted(place));
}

/* The command's time is a call after that of its question. */
static int give(void)
{
	lsampl_t time[2];
	comedi_insn ask = { .insn = INSN_GTOD, .n = 2, .data = time };
	memset(&command, 0, sizeof command);
	command.chanlist_len = command.scan_end_arg = 1 + below(ENTRIES);
	command.chanlist = list;
	for (unsigned i = 0; i < ENTRIES; i++)
		list[i] = below(LINES);
	command.start_src = TRIG_NOW;
	command.scan_begin_src = TRIG_TIMER;
	command.scan_begin_arg = 100000 * (1 + below(3));
	command.convert_src = below(3) ? TRIG_NOW : TRIG_TIMER;
	command.convert_arg = command.convert_src == TRIG_NOW ? 0 : 1000 * (1 + below(2));
	command.scan_end_src = command.stop_src = TRIG_COUNT;
	command.stop_arg = 1 + below(14);
	taken = 0;
	comedi_do_insn(device, &ask);
	start = (time[0] * 1000000ull + time[1] + 1) * 1000;
	return comedi_command(device, &command);
}

/* Of few samples mostly, so that a part of a scan is left. */
static unsigned some_bytes(void)
{
	return 2 * (1 + below(below(4) ? 3 : 40));
}

/* A command ends well after its last sample, and else by an overrun. Answers 0, for the loop to end. */
static int end(long result, unsigned there)
{
	if (result < 0 && errno == EAGAIN)
		return 1;
	if (!(result < 0 && errno == EPIPE) && taken != command.stop_arg * samples_of_scan() && ++wrong <= 10)
		printf("after %u samples, and %u more: %s\n", taken, there, result < 0 ? strerror(errno) : "the end");
	return 0;
}

static int read_some(int flags)
{
	sampl_t some[64];
	fcntl(comedi_fileno(device), F_SETFL, flags);
	ssize_t bytes = read(comedi_fileno(device), some, some_bytes());
	for (int i = 0; i < bytes / 2; i++)
		compare(taken++, some[i]);
	return bytes > 0 ? 1 : end(bytes, 0);
}

/* What is in the buffer, and then a part of it is given back. */
static int mark_some(void)
{
	int there = comedi_get_buffer_contents(device, 0), place = there < 0 ? 0 : comedi_get_buffer_offset(device, 0);
	if (there < 0 || place < 0)
		return end(-1, 0);
	if ((unsigned)place != taken % PLACES * 2 && ++wrong <= 10)
		printf("the buffer is read at %d after %u samples\n", place, taken);
	for (int i = 0; map && i < there / 2; i++)
		compare(taken + i, map[(taken + i) % PLACES]);
	int marked = comedi_mark_buffer_read(device, 0, some_bytes());
	taken += marked < 0 ? 0 : marked / 2;
	return marked < 0 ? end(-1, there) : 1;
}

static int call_any(void)
{
	switch (below(4)) {
	case 0:
		return read_some(O_NONBLOCK);
	case 1:
		return read_some(0);
	case 2:
		return mark_some();
	}
	usleep(below(600));
	return 1;
}

int main(int argc, char **argv)
{
	int commands = argc > 1 ? atoi(argv[1]) : 300;
	state = argc > 2 ? strtoul(argv[2], NULL, 10) : 1;
	device = open_board();
	for (int i = 0; i < commands; i++) {
		if (give())
			return report("command", -1);
		if (i == commands / 2)
			map = mmap(NULL, PLACES * sizeof *map, PROT_READ, MAP_SHARED, comedi_fileno(device), 0);
		while (call_any())
			;
		comedi_cancel(device, 0);
	}
	printf("%d commands, %ld wrong\n", commands, wrong);
	comedi_close(device);
	return map == MAP_FAILED || samples < commands;
}

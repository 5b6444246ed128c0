/*
 * The calls of a client, by letters. They are made within the device, with structs and memory as a client has them. What stands
 * for the rest of the library here takes no lock, writes no record and knows no wall clock.
 */
#define _GNU_SOURCE
#include "calls.h"
#include "descriptors.h"
#include "device.h"
#include "names.h"
#include "server.h"
#include <errno.h>
#include <stdarg.h>
#include <stdio.h>
#include <stdlib.h>
#include <string.h>
#include <sys/ioctl.h>
#include <unistd.h>

/* buffers of all subdevices together that have memory here */
#define MOST_MEMORY (1 << 20)
#define ENTRIES 4

static struct device the_device;
struct device *device = &the_device;
static char bytes[1 << 15];

/* What the rest of the library does. */

int copy_in(void *to, const void *from, size_t count)
{
	memcpy(to, from, count);
	return 0;
}

int copy_out(void *to, const void *from, size_t count)
{
	memcpy(to, from, count);
	return 0;
}

void time_to(uint64_t time)
{
	if (time <= device->client_now)
		return;
	device->client_now = time;
	device->now = time < device->horizon ? time : device->horizon;
}

void time_call(void)
{
	time_to(device->client_now + device->call_time);
}

void time_spend(uint64_t nanoseconds)
{
	time_to(device->client_now + nanoseconds);
}

int time_wait(uint64_t time)
{
	time_to(time);
	return 0;
}

void time_say_end(void)
{
}

int turns_is_alone(void)
{
	return 1;
}

int signals_restart(void)
{
	return 1;
}

void device_changed(void)
{
}

void device_close_left(void)
{
}

int keep_away(int descriptor)
{
	return descriptor;
}

void descriptors_protect(int *place)
{
	(void)place;
}

int memory_lengthen(int descriptor, size_t length)
{
	return ftruncate(descriptor, length) ? -errno : 0;
}

void rings_note_program(pid_t program)
{
	(void)program;
}

const char *program_library(void)
{
	return "/";
}

/* Takes the text of a line for standard error, so that each of its parts is read. */
void message(const char *form, ...)
{
	static char text[1 << 16];
	va_list values;
	va_start(values, form);
	vsnprintf(text, sizeof text, form, values);
	va_end(values);
}

int record_is_there(void)
{
	return 1;
}

void record_put(const char *text, size_t length)
{
	memcpy(bytes, text, length);
}

void record_line(const char *text, size_t length)
{
	(void)text;
	(void)length;
	folding_end();
}

void record_question(const char *text, size_t length, const char *answer)
{
	const char *words = memchr(text, ' ', length);
	if (words)
		folding_leaves_out(device->now, words, text + length - words, answer);
}

void record_note(const char *form, ...)
{
	static char text[1024];
	va_list values;
	va_start(values, form);
	vsnprintf(text, sizeof text, form, values);
	va_end(values);
	folding_end();
}

/* The calls. */

static void command(unsigned request, unsigned number, unsigned entries)
{
	static unsigned list[ENTRIES];
	comedi_cmd one = { .subdev = number, .start_src = TRIG_NOW, .scan_begin_src = TRIG_TIMER, .scan_begin_arg = 10000,
		.convert_src = TRIG_NOW, .scan_end_src = TRIG_COUNT, .scan_end_arg = entries, .stop_src = TRIG_COUNT, .stop_arg = 100,
		.chanlist = list, .chanlist_len = entries };
	for (unsigned i = 0; i < entries; i++)
		list[i] = CR_PACK(i, 0, AREF_GROUND);
	device_ioctl(0, request, &one);
}

static void instruct(unsigned what, unsigned number, unsigned count)
{
	lsampl_t data[READINGS_OF_A_LINE * 2] = { 0 };
	comedi_insn one = { .insn = what, .n = count, .data = data, .subdev = number, .chanspec = CR_PACK(1, 0, AREF_GROUND) };
	if (what == INSN_CONFIG)
		data[0] = INSN_CONFIG_DIO_QUERY;
	device_ioctl(0, COMEDI_INSN, &one);
}

static void ask_board(void)
{
	static comedi_devinfo information;
	static comedi_subdinfo subdevices[MOST_SUBDEVICES];
	static unsigned numbers[MOST_CHANNELS], ranges[MOST_CHANNELS];
	static comedi_krange range[256];
	device_ioctl(0, COMEDI_DEVINFO, &information);
	device_ioctl(0, COMEDI_SUBDINFO, subdevices);
	for (unsigned i = 0; i < device->subdevices; i++) {
		comedi_chaninfo channels = { .subdev = i, .maxdata_list = numbers };
		device_ioctl(0, COMEDI_CHANINFO, &channels);
		channels = (comedi_chaninfo){ .subdev = i, .rangelist = ranges };
		device_ioctl(0, COMEDI_CHANINFO, &channels);
		comedi_rangeinfo asked = { i << 24 | device->subdevice[i].channel[0].ranges, range };
		device_ioctl(0, COMEDI_RANGEINFO, &asked);
	}
}

static void ask_buffer(unsigned number, unsigned read, unsigned written)
{
	comedi_bufinfo buffer = { .subdevice = number, .bytes_read = read, .bytes_written = written };
	comedi_bufconfig size = { .subdevice = number, .size = 1 };
	device_ioctl(0, COMEDI_BUFINFO, &buffer);
	device_ioctl(0, COMEDI_BUFCONFIG, &size);
	device_ioctl(0, COMEDI_POLL, (void *)(uintptr_t)number);
}

static void look(void)
{
	uint64_t time;
	stream_ready_to_read(0);
	stream_ready_to_write(0);
	stream_next_time(0, 1, 1, &time);
	if (device->subdevices)
		stream_next_event(0, 0, &time);
}

static void map_buffers(void)
{
	for (unsigned i = 0; i < device->subdevices; i++)
		if (device->subdevice[i].buffer)
			buffer_map(0, i);
}

static void give_trigger(unsigned number)
{
	lsampl_t zero = 0;
	comedi_insn trigger = { .insn = INSN_INTTRIG, .n = 1, .data = &zero, .subdev = number };
	device_ioctl(0, COMEDI_INSN, &trigger);
}

/* Makes the calls that read and write. Returns whether the letter is one of them. */
static int moves(char letter)
{
	switch (letter) {
	case 'r':
		return device_read(0, bytes, 2, 1), 1;
	case 'R':
		return device_read(0, bytes, sizeof bytes, 1), 1;
	case 'n':
		return device_read(0, bytes, 2, 0), 1;
	case 'N':
		return device_read(0, bytes, 1001, 0), 1;
	case '0':
		return device_read(0, bytes, 0, 0), device_write(0, bytes, 0, 0), 1;
	case 'w':
		return device_write(0, bytes, 2, 0), 1;
	case 'W':
		return device_write(0, bytes, sizeof bytes, 1), 1;
	case 'o':
		return device_write(0, bytes, 5, 1), 1;
	}
	return 0;
}

/* Makes the calls of instructions and commands. Returns whether the letter is one of them. */
static int instructs(char letter)
{
	switch (letter) {
	case 'c':
		return command(COMEDI_CMD, 0, 1), 1;
	case 'C':
		return command(COMEDI_CMD, 0, ENTRIES), 1;
	case 'd':
		return command(COMEDI_CMD, 1, 2), 1;
	case 't':
		return command(COMEDI_CMDTEST, 0, 2), 1;
	case 'i':
		return instruct(INSN_READ, 0, READINGS_OF_A_LINE + 1), 1;
	case 'j':
		return instruct(INSN_WRITE, 1, 3), 1;
	case 'b':
		return instruct(INSN_BITS, 2, 2), 1;
	case 'f':
		return instruct(INSN_CONFIG, 2, 2), 1;
	case 'g':
		return instruct(INSN_GTOD, 0, 2), 1;
	case 'q':
		return give_trigger(1), 1;
	}
	return 0;
}

void calls_make(char letter)
{
	if (moves(letter) || instructs(letter))
		return;
	switch (letter) {
	case 's':
		ask_board();
		break;
	case 'u':
		ask_buffer(0, 0, 0);
		break;
	case 'U':
		ask_buffer(0, 3, 0);
		break;
	case 'v':
		ask_buffer(1, 0, 64);
		break;
	case 'p':
		look();
		break;
	case 'm':
		map_buffers();
		break;
	case 'l':
		device_ioctl(0, COMEDI_LOCK, 0);
		break;
	case 'x':
		device_ioctl(0, COMEDI_CANCEL, 0);
		device_ioctl(0, COMEDI_CANCEL, (void *)1);
		break;
	}
}

/* Gives each subdevice memory. Returns 0, or -ENOMEM if all of it is too much: then the board can't be opened. */
static int make_memory(void)
{
	size_t whole = 0;
	for (unsigned i = 0; i < device->subdevices; i++)
		whole += (size_t)device->subdevice[i].buffer * device->subdevice[i].sample_bytes;
	if (whole > MOST_MEMORY)
		return -ENOMEM;
	for (unsigned i = 0; i < device->subdevices; i++)
		device->subdevice[i].memory = calloc(device->subdevice[i].buffer, device->subdevice[i].sample_bytes);
	return 0;
}

/* Asks for the board, and opens it. Returns 0, or what a client is answered that can't open it. */
int calls_begin(void)
{
	static char board[] = "comedi 1\nboard first\nsession\n";
	const struct text text = { board, sizeof board - 1, 3 };
	struct file *f = device->file;
	memset(device->file, 0, sizeof device->file);
	device->folding.recorded = device->folding.round = 0;
	device->now = device->client_now = 0;
	device->horizon = 0;
	device->call_time = 1000;
	device->wake = WAKE_FULL;
	if (board_ask()) {
		text_say_refusal("board", &text, server_answer());
		return -EINVAL;
	}
	if (make_memory())
		return -ENOMEM;
	line_of_session("open 0");
	f->is_open = 1;
	f->read_subdevice = f->write_subdevice = NO_SUBDEVICE;
	for (int i = device->subdevices - 1; i >= 0; i--)
		if (device->subdevice[i].flags & SDF_CMD)
			*(board_is_input(&device->subdevice[i]) ? &f->read_subdevice : &f->write_subdevice) = i;
	return 0;
}

void calls_end(void)
{
	for (unsigned i = 0; i < MOST_SUBDEVICES; i++) {
		free(device->subdevice[i].memory);
		device->subdevice[i].memory = NULL;
	}
}

/* Numbers at the limits of 32 and 64 bits, in calls that find samples or room.
 *     limits PART */
#include "probe.h"
#include <sys/uio.h>

static const unsigned numbers[] = { 0, 1, 2, 3, 0x7ffffffe, 0x7fffffff, 0x80000000, 0x80000001, 0xfffffffe, 0xffffffff };
static const size_t sizes[] = { 0x7ffff000, 0x7fffffff, 0x80000000, 0xffffffff, 0x100000000ul, 0x7fffffffffffffff };
static unsigned list[] = { 2, 3 };
static char bytes[BUFFER_BYTES];
static int file;

static void be_ended(void)
{
	give(file, input_command(list, 2, 100000, 5));
	await_end(file, INPUT);
}

static void be_overrun(void) { overrun(file); }

static void be_armed(void)
{
	give(file, output_command(list, 2, SLOW, 0));
	write(file, bytes, 40);
}

static void be_full(void)
{
	be_armed();
	write(file, bytes, BUFFER_BYTES);
}

static const struct {
	const char *name;
	void (*lead)(void);
} states[] = { { "ended", be_ended }, { "overrun", be_overrun }, { "armed", be_armed }, { "full", be_full } };

static void cancel(void)
{
	ioctl(file, COMEDI_CANCEL, INPUT);
	ioctl(file, COMEDI_CANCEL, OUTPUT);
}

static void show_counts(const char *state, unsigned subdevice, unsigned read, unsigned written)
{
	comedi_bufinfo b;
	int result = buffer_call(file, subdevice, read, written, &b);
	row("%s: counts of %u, read %u, written %u = %s, %u %u wc %u wp %u rc %u rp %u", state, subdevice, read, written,
		answer(result), b.bytes_read, b.bytes_written, b.buf_write_count, b.buf_write_ptr, b.buf_read_count,
		b.buf_read_ptr);
}

static void counts(char **words)
{
	(void)words;
	for (size_t s = 0; s < LENGTH(states); s++)
		for (size_t n = 0; n < LENGTH(numbers); n++)
			for (unsigned subdevice = 0; subdevice < 2; subdevice++) {
				states[s].lead();
				show_counts(states[s].name, subdevice, numbers[n], 0);
				show_counts(states[s].name, subdevice, 0, numbers[n]);
				show_counts(states[s].name, subdevice, numbers[n], numbers[n]);
				row("%s: state = %s", states[s].name, state_of(file));
				cancel();
			}
}

/* Moves of more bytes than there are: the pointer leads to enough memory for those that are moved. */
static void moves(char **words)
{
	(void)words;
	for (size_t s = 0; s < LENGTH(states); s++)
		for (size_t n = 0; n < LENGTH(sizes); n++) {
			struct iovec pieces[] = { { bytes, 4 }, { bytes + 4, sizes[n] } };
			states[s].lead();
			row("%s: read %zu = %s", states[s].name, sizes[n], answer(read(file, bytes, sizes[n])));
			row("%s: read %zu again = %s", states[s].name, sizes[n], answer(read(file, bytes, sizes[n])));
			row("%s: state = %s", states[s].name, state_of(file));
			cancel();
			states[s].lead();
			row("%s: read 4 and %zu = %s", states[s].name, sizes[n], answer(readv(file, pieces, 2)));
			row("%s: state = %s", states[s].name, state_of(file));
			cancel();
		}
}

static void times(char **words)
{
	static const int milliseconds[] = { 0, 1, 0x7fffffff, -1, -2, -0x7fffffff - 1 };
	(void)words;
	for (size_t t = 0; t < LENGTH(milliseconds); t++) {
		row("idle: poll of %d ms = %s", milliseconds[t], poll_answer(file, POLLIN | POLLOUT, milliseconds[t]));
		be_ended();
		row("ended: poll of %d ms = %s", milliseconds[t], poll_answer(file, POLLIN, milliseconds[t]));
		cancel();
	}
}

/* Commands with numbers at the limits: whether they are taken, who is busy, and how many samples there are. */
static void commands(char **words)
{
	static const unsigned more[] = { 999, 1000, 1001, 3999999999u, 4000000000u, 4294966000u, 4294967000u };
	(void)words;
	for (size_t n = 0; n < LENGTH(numbers) + LENGTH(more); n++)
		for (unsigned field = 0; field < 3; field++)
			for (unsigned subdevice = 0; subdevice < 2; subdevice++) {
				unsigned value = n < LENGTH(numbers) ? numbers[n] : more[n - LENGTH(numbers)];
				comedi_cmd command = subdevice == INPUT ? input_command(list, 2, 100000, 5) :
									  output_command(list, 2, 100000, 5);
				*(field == 0       ? &command.scan_begin_arg :
					field == 1 ? &command.stop_arg :
						     &command.convert_arg) = value;
				if (field == 2)
					command.convert_src = TRIG_TIMER, command.scan_begin_arg = SLOW;
				int result = ioctl(file, COMEDI_CMD, &command);
				row("command of %u, field %u %u = %s %s", subdevice, field, value, answer(result),
					command_text(&command, list));
				row("command of %u, field %u %u: busy = %d", subdevice, field, value,
					strstr(state_of(file), "BUSY") != NULL);
				cancel();
			}
}

int main(int argc, char **argv)
{
	static const struct part parts[] = { { "counts", counts }, { "moves", moves }, { "times", times },
		{ "commands", commands } };
	(void)argc;
	file = open_device(O_RDWR | O_NONBLOCK);
	set_buffers(file);
	return run_part(parts, LENGTH(parts), argv, 120);
}

/* The command of a parallel port, which takes a scan at each interrupt. In the real kernel the probe makes an interrupt by
 * the port's control register. On a modelled board, with PROBE_EDGES in the environment, external line 0 has an edge every
 * millisecond, and the probe lets time go on instead.
 *     interrupts PART */
#include "probe.h"
#include <time.h>

#define SUBDEVICE 3

static char bytes[BUFFER_BYTES];
static const char *device;
static int by_time, a, b;
static unsigned list[2];

/* Goes on to the middle between two edges, so that no edge comes with a call. */
static void align(void)
{
	lsampl_t bits[2] = { 0xf, 0 };
	struct timespec time;
	if (!by_time) {
		instruction(a, INSN_BITS, 2, 0, 2, bits);
		return;
	}
	clock_gettime(CLOCK_REALTIME, &time);
	time.tv_nsec = 1500000 - time.tv_nsec % 1000000;
	time.tv_sec = 0;
	nanosleep(&time, NULL);
}

static void interrupt(int count)
{
	if (by_time)
		sleep_milliseconds(count);
	for (; !by_time && count; count--) {
		lsampl_t on[2] = { 0xf, 0xc }, read[2] = { 0, 0 }, off[2] = { 0xf, 0 };
		instruction(a, INSN_BITS, 2, 0, 2, on);
		instruction(a, INSN_BITS, 1, 0, 2, read);
		instruction(a, INSN_BITS, 2, 0, 2, off);
		sleep_milliseconds(2);
	}
}

static comedi_cmd port_command(void)
{
	return (comedi_cmd){
		.subdev = SUBDEVICE,
		.start_src = TRIG_NOW,
		.scan_begin_src = TRIG_EXT,
		.convert_src = TRIG_FOLLOW,
		.scan_end_src = TRIG_COUNT,
		.scan_end_arg = 1,
		.stop_src = TRIG_NONE,
		.chanlist = list,
		.chanlist_len = 1,
	};
}

static const char *port_state(int file)
{
	comedi_subdinfo s[16] = { 0 };
	ioctl(file, COMEDI_SUBDINFO, s);
	return flags_text(s[SUBDEVICE].subd_flags);
}

static void show_counts(int file, const char *what, unsigned taken)
{
	comedi_bufinfo c;
	int result = buffer_call(file, SUBDEVICE, taken, 0, &c);
	if (result)
		row("%s: counts, %u = %s", what, taken, answer(result));
	else
		row("%s: counts, %u = %u wc %u wp %u rc %u rp %u", what, taken, c.bytes_read, c.buf_write_count, c.buf_write_ptr,
			c.buf_read_count, c.buf_read_ptr);
}

static void look(int file, const char *what)
{
	row("%s: poll = %s", what, poll_answer(file, POLLIN | POLLOUT, 0));
	row("%s: state = %s", what, port_state(file));
	show_counts(file, what, 0);
}

static void take(const char *what, int file, size_t count)
{
	unsigned others = 0;
	ssize_t result = read(file, bytes, count);
	for (ssize_t i = 0; i < result; i++)
		others += bytes[i] != 0;
	row("%s: read %zu = %s others %u", what, count, answer(result), others);
}

static void requests(char **words)
{
	comedi_devinfo d;
	(void)words;
	ioctl(a, COMEDI_DEVINFO, &d);
	row("subdevices to read and write = %d %d", d.read_subdevice, d.write_subdevice);
	row("write = %s", answer(write(a, bytes, 2)));
	row("map for reading = %s", map_answer(a, 4096, PROT_READ, MAP_SHARED, 0));
	row("map for writing = %s", map_answer(a, 4096, PROT_READ | PROT_WRITE, MAP_SHARED, 0));
	for (unsigned s = 0; s < 5; s++) {
		comedi_cmd command = port_command();
		comedi_bufinfo counts;
		command.subdev = s;
		row("read from %u = %s", s, answer(ioctl(a, COMEDI_SETRSUBD, s)));
		row("write to %u = %s", s, answer(ioctl(a, COMEDI_SETWSUBD, s)));
		int result = ioctl(a, COMEDI_CMDTEST, &command);
		row("test of %u = %s %s", s, answer(result), command_text(&command, list));
		row("cancel of %u = %s", s, answer(ioctl(a, COMEDI_CANCEL, s)));
		row("ask %u for samples = %s", s, answer(ioctl(a, COMEDI_POLL, s)));
		row("lock of %u = %s", s, answer(ioctl(a, COMEDI_LOCK, s)));
		row("unlock of %u = %s", s, answer(ioctl(a, COMEDI_UNLOCK, s)));
		row("counts of %u = %s", s, answer(buffer_call(a, s, 0, 0, &counts)));
		row("trigger of %u = %s", s, answer(trigger(a, s, 0)));
	}
	ioctl(a, COMEDI_SETRSUBD, SUBDEVICE);
}

static void tests(char **words)
{
	static const unsigned arguments[] = { 0, 1, 2, 1000, 0x7fffffff, 0x80000000, 0xffffffff };
	static const unsigned sources[] = { 0, TRIG_NOW, TRIG_EXT, TRIG_FOLLOW, TRIG_COUNT, TRIG_NONE, TRIG_ANY };
	(void)words;
	for (unsigned field = 0; field < 10; field++)
		for (size_t v = 0; v < LENGTH(arguments); v++) {
			comedi_cmd command = port_command();
			unsigned value = field % 2 ? arguments[v] : sources[v];
			(&command.start_src)[field] = value;
			int result = ioctl(a, COMEDI_CMDTEST, &command);
			row("test, field %u %x = %s %s", field, value, answer(result), command_text(&command, list));
		}
}

static void samples(char **words)
{
	lsampl_t data[2] = { 0, 0 };
	(void)words;
	align();
	row("command = %s", answer(give(a, port_command())));
	look(a, "begun");
	take("begun", a, 2);
	interrupt(3);
	look(a, "3 edges");
	look(b, "3 edges, B");
	take("3 edges, B", b, 2);
	take("3 edges", a, 0);
	take("3 edges", a, 2);
	look(a, "2 are left");
	show_counts(a, "2 are left", 2);
	take("1 is left", a, 100);
	take("none is left", a, 100);
	row("instruction while it runs = %s", answer(instruction(a, INSN_READ, SUBDEVICE, 0, 1, data)));
	row("bits while it runs = %s", answer(instruction(a, INSN_BITS, SUBDEVICE, 0, 2, data)));
	row("bits of another = %s", answer(instruction(a, INSN_BITS, 0, 0, 2, data)));
	row("lock while it runs = %s", answer(ioctl(b, COMEDI_LOCK, SUBDEVICE)));
	row("command while it runs = %s", answer(give(b, port_command())));
	row("read from it while it runs = %s", answer(ioctl(a, COMEDI_SETRSUBD, SUBDEVICE)));
	interrupt(5);
	look(a, "5 edges");
	row("cancel = %s", answer(ioctl(a, COMEDI_CANCEL, SUBDEVICE)));
	look(a, "cancelled");
	take("cancelled", a, 100);
}

static void mapped(char **words)
{
	(void)words;
	align();
	row("command = %s", answer(give(a, port_command())));
	interrupt(2);
	look(a, "2 edges");
	sampl_t *map = mmap(NULL, 4096, PROT_READ, MAP_SHARED, a, 0);
	row("map = %s", map == MAP_FAILED ? error_name(errno) : "mapped");
	show_counts(a, "mapped", 0);
	row("words of the map = %x %x", map[0], map[1]);
	show_counts(a, "mapped", 1000);
	munmap(map, 4096);
	close(a);
	row("closed: state = %s", port_state(b));
}

int main(int argc, char **argv)
{
	static const struct part parts[] = { { "requests", requests }, { "tests", tests }, { "samples", samples },
		{ "mapped", mapped } };
	comedi_bufconfig size = { .subdevice = SUBDEVICE, .size = BUFFER_BYTES };
	(void)argc;
	device = getenv("PROBE_DEVICE") ? getenv("PROBE_DEVICE") : DEVICE;
	by_time = getenv("PROBE_EDGES") != NULL;
	a = open(device, O_RDWR | O_NONBLOCK);
	b = open(device, O_RDWR | O_NONBLOCK);
	if (a < 0 || b < 0)
		return 3;
	ioctl(a, COMEDI_BUFCONFIG, &size);
	return run_part(parts, LENGTH(parts), argv, 120);
}

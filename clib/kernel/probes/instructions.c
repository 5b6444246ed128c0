/* Instructions one by one: kinds, subdevices, channels, numbers of values, values, pointers, and those for the device.
 *     instructions PART */
#include "probe.h"

#define MOST_VALUES 70000

static lsampl_t data[MOST_VALUES];
static const unsigned kinds[] = { INSN_READ, INSN_WRITE, INSN_BITS, INSN_CONFIG };
static int file;

/* Makes an instruction whose values are in `data`, and prints the first four after it, and the last one. */
static void try(const char *what, unsigned kind, unsigned subdevice, unsigned channel, unsigned count)
{
	int result = instruction(file, kind, subdevice, channel, count, data);
	unsigned last = count && count <= MOST_VALUES ? count - 1 : 0;
	row("%s: %#x of %d, %#x, %u values = %s, %x %x %x %x .. %x", what, kind, (int)subdevice, channel, count, answer(result),
		data[0], data[1], data[2], data[3], data[last]);
}

static void fill(lsampl_t value)
{
	for (size_t i = 0; i < MOST_VALUES; i++)
		data[i] = value;
}

static void try_kinds(char **words)
{
	static const unsigned all[] = { INSN_READ, INSN_WRITE, INSN_BITS, INSN_CONFIG, 0, 1, 2, 3, 4, 9,
		INSN_READ | INSN_MASK_WRITE, INSN_WRITE | INSN_MASK_READ, 0x7fffffff, 0x80000000, 0xffffffff, INSN_MASK_READ | 7,
		INSN_MASK_SPECIAL, INSN_MASK_SPECIAL | 9 };
	static const unsigned subdevices[] = { 0, 1, 2, 15, 16, 255, 256, 0x7fffffff, 0x80000000, 0xffffffff };
	(void)words;
	for (size_t k = 0; k < LENGTH(all); k++)
		for (size_t s = 0; s < LENGTH(subdevices); s++)
			for (unsigned count = 0; count < 4; count++) {
				fill(MIDDLE);
				try("middle", all[k], subdevices[s], 4, count);
			}
}

static void try_channels(char **words)
{
	static const unsigned channels[] = { 1, 2, 6, 7, 8, CR_PACK(4, 1, 0), CR_PACK(7, 1, AREF_OTHER), CR_PACK(4, 2, 0),
		CR_PACK(4, 255, 0), CR_PACK(4, 0, AREF_DIFF), CR_PACK(4, 0, AREF_COMMON), 0x04000004, 0x80000004, 0xffffffff,
		0xffff, 0x00ff0004, CR_PACK(3, 0, AREF_DIFF) | CR_ALT_FILTER, 0x7fffffff, 0x10004 };
	(void)words;
	for (size_t k = 0; k < LENGTH(kinds); k++)
		for (unsigned subdevice = 0; subdevice < 2; subdevice++)
			for (size_t c = 0; c < LENGTH(channels); c++) {
				fill(MIDDLE);
				try("middle", kinds[k], subdevice, channels[c], kinds[k] == INSN_BITS ? 2 : 1);
			}
}

static void try_counts(char **words)
{
	static const unsigned counts[] = { 0, 1, 2, 3, 15, 16, 17, 100, 4096, 65535, 65536, 65537, 0x7fffffff, 0x80000000,
		0xffffffff };
	(void)words;
	for (size_t k = 0; k < LENGTH(kinds); k++)
		for (unsigned subdevice = 0; subdevice < 2; subdevice++)
			for (size_t c = 0; c < LENGTH(counts); c++) {
				fill(MIDDLE);
				try("middle", kinds[k], subdevice, 4, counts[c]);
			}
}

static void try_values(char **words)
{
	static const unsigned values[] = { 0, 1, 32767, 65535, 65536, 0x7fffffff, 0x80000000, 0xffff0000, 0xffffffff };
	(void)words;
	for (size_t v = 0; v < LENGTH(values); v++) {
		fill(values[v]);
		try("value", INSN_WRITE, OUTPUT, 3, 1);
		fill(0x55);
		try("back", INSN_READ, OUTPUT, 3, 1);
	}
	for (unsigned i = 0; i < 8; i++)
		data[i] = i == 5 ? 70000 : i * 100;
	try("one is too great", INSN_WRITE, OUTPUT, 3, 8);
	try("back", INSN_READ, OUTPUT, 3, 1);
	for (unsigned i = 0; i < 4; i++)
		data[i] = 10 * i + 10;
	try("four", INSN_WRITE, OUTPUT, 4, 4);
	try("back", INSN_READ, OUTPUT, 4, 2);
	try("never written", INSN_READ, OUTPUT, 5, 1);
	try("input of the same channel", INSN_READ, INPUT, 4, 1);
	fill(MIDDLE);
	for (unsigned channel = 0; channel < 8; channel++)
		try("put back", INSN_WRITE, OUTPUT, channel, 1);
	try("input of the same channel", INSN_READ, INPUT, 4, 3);
}

static void try_pointers(char **words)
{
	static const unsigned counts[] = { 0, 1, 2, 70000 };
	void *places[] = { NULL, (void *)1, no_page, read_only_page, (void *)0xffff888000000000ul };
	static const char *const names[] = { "NULL", "1", "no page", "a page to read", "the kernel's memory" };
	(void)words;
	for (size_t k = 0; k < LENGTH(kinds); k++)
		for (unsigned subdevice = 0; subdevice < 3; subdevice++)
			for (size_t p = 0; p < LENGTH(places); p++)
				for (size_t c = 0; c < LENGTH(counts); c++)
					for (unsigned channel = 4; channel < 10; channel += 5)
						row("%s: %#x of %u, %u, %u values = %s", names[p], kinds[k], subdevice, channel,
							counts[c],
							answer(instruction(
								file, kinds[k], subdevice, channel, counts[c], places[p])));
	for (size_t k = 0; k < LENGTH(kinds); k++) {
		memset(last_bytes, 0, 16);
		row("over the last bytes: %#x = %s", kinds[k], answer(instruction(file, kinds[k], INPUT, 4, 5, last_bytes)));
	}
	row("instruction at NULL = %s", answer(ioctl(file, COMEDI_INSN, NULL)));
	row("instruction at no page = %s", answer(ioctl(file, COMEDI_INSN, no_page)));
	row("instruction at the last bytes = %s", answer(ioctl(file, COMEDI_INSN, last_bytes)));
}

static void try_special(char **words)
{
	static const unsigned waits[] = { 0, 1, 999, 1000, 50000, 99999, 100000, 100001, 0x7fffffff, 0x80000000, 0xffffffff };
	static const unsigned subdevices[] = { 0, 1, 2, 0xffffffff };
	lsampl_t time[2] = { 0, 0 };
	(void)words;
	for (unsigned count = 0; count < 5; count++)
		for (size_t s = 0; s < LENGTH(subdevices); s++)
			row("time of day of %d, %u values = %s", (int)subdevices[s], count,
				answer(instruction(file, INSN_GTOD, subdevices[s], 0, count, data)));
	row("time of day to no page = %s", answer(instruction(file, INSN_GTOD, 0, 0, 2, no_page)));
	instruction(file, INSN_GTOD, 0, 0, 2, time);
	row("microseconds of the time of day are below a million = %d", time[1] < 1000000);
	row("seconds of the time of day are since 1970 = %d", time[0] > 1000000000);
	for (size_t w = 0; w < LENGTH(waits); w++)
		for (unsigned count = 0; count < 3; count++) {
			data[0] = waits[w];
			row("wait of %u, %u values = %s", waits[w], count,
				answer(instruction(file, INSN_WAIT, 9, 0x99, count, data)));
		}
	for (size_t s = 0; s < LENGTH(subdevices); s++)
		for (unsigned count = 0; count < 3; count++)
			for (unsigned value = 0; value < 3; value++) {
				data[0] = value == 2 ? 0xffffffff : value;
				row("trigger of %d while idle, %u values, %u = %s", (int)subdevices[s], count, value,
					answer(instruction(file, INSN_INTTRIG, subdevices[s], 0, count, data)));
			}
}

static void try_configurations(char **words)
{
	static const unsigned numbers[] = { 0, 1, 2, 3, 16, 17, 18, 21, 22, 23, 24, 25, 26, 27, 28, 31, 34, 100, 2001, 2002, 2003,
		2004, 2005, 2006, 2007, 3001, 4097, 4099, 4109, 5000, 5001, 5002, 5003, 9999, 0x7fffffff, 0x80000000,
		0xffffffff };
	(void)words;
	for (unsigned subdevice = 0; subdevice < 2; subdevice++)
		for (size_t c = 0; c < LENGTH(numbers); c++)
			for (unsigned count = 1; count < 7; count++) {
				memset(data, 0, 64);
				data[0] = numbers[c];
				try("configuration", INSN_CONFIG, subdevice, 0, count);
				row("configuration %u = %s", numbers[c],
					answer(instruction(file, INSN_CONFIG, subdevice, 0, count, data)));
			}
}

/* What the kernel has and comedilib 0.11 doesn't have: the constraints of timing, and instructions for the device. */
static void try_newer(char **words)
{
	static const unsigned sources[][2] = { { TRIG_FOLLOW, TRIG_TIMER }, { TRIG_TIMER, TRIG_TIMER }, { TRIG_TIMER, TRIG_NOW },
		{ TRIG_TIMER | TRIG_FOLLOW, TRIG_TIMER } };
	const unsigned constraints = 5005, device_configuration = INSN_MASK_WRITE | INSN_MASK_READ | INSN_MASK_SPECIAL | 3;
	(void)words;
	for (unsigned subdevice = 0; subdevice < 2; subdevice++)
		for (size_t i = 0; i < LENGTH(sources); i++) {
			memset(data, 0, 64);
			data[0] = constraints, data[1] = sources[i][0], data[2] = sources[i][1];
			try("constraints of timing", INSN_CONFIG, subdevice, 0, 4);
		}
	for (unsigned number = 0; number < 5; number++)
		for (unsigned count = 0; count < 5; count++) {
			memset(data, 0, 64);
			data[0] = number, data[1] = 1;
			try("configuration of the device", device_configuration, 0, number, count);
		}
}

int main(int argc, char **argv)
{
	static const struct part parts[] = {
		{ "kinds", try_kinds },
		{ "channels", try_channels },
		{ "counts", try_counts },
		{ "values", try_values },
		{ "pointers", try_pointers },
		{ "special", try_special },
		{ "configurations", try_configurations },
		{ "newer", try_newer },
	};
	(void)argc;
	make_pages();
	file = open_device(O_RDWR);
	return run_part(parts, LENGTH(parts), argv, 120);
}

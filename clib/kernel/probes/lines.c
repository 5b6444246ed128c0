/* Digital lines without a command: every instruction of every subdevice of a board.
 *     lines all */
#include "probe.h"

static int file;
static lsampl_t data[16];

static int on(unsigned kind, unsigned subdevice, unsigned channel, unsigned count, lsampl_t first, lsampl_t second)
{
	data[0] = first;
	data[1] = second;
	return instruction(file, kind, subdevice, channel, count, data);
}

static void describe(unsigned subdevice, const comedi_subdinfo *s)
{
	comedi_krange range[4] = { 0 };
	comedi_rangeinfo asked = { s->range_type, range };
	comedi_bufconfig size = { .subdevice = subdevice };
	row("%u: type = %u", subdevice, s->type);
	row("%u: channels = %u", subdevice, s->n_chan);
	row("%u: flags = %#x", subdevice, s->subd_flags);
	row("%u: list = %u", subdevice, s->len_chanlist);
	row("%u: greatest code = %u", subdevice, s->maxdata);
	row("%u: range = %#x", subdevice, s->range_type);
	row("%u: bits = %u", subdevice, s->insn_bits_support);
	int result = ioctl(file, COMEDI_RANGEINFO, &asked);
	row("%u: range of it = %s, %d to %d %x", subdevice, answer(result), range[0].min, range[0].max, range[0].flags);
	row("%u: buffer = %s", subdevice, answer(ioctl(file, COMEDI_BUFCONFIG, &size)));
	row("%u: ask for samples = %s", subdevice, answer(ioctl(file, COMEDI_POLL, subdevice)));
}

static void show_direction(unsigned subdevice, unsigned channel)
{
	int result = on(INSN_CONFIG, subdevice, channel, 2, INSN_CONFIG_DIO_QUERY, 9);
	row("%u.%u: direction = %s %u", subdevice, channel, answer(result), data[1]);
}

static void show_level(unsigned subdevice, unsigned channel)
{
	int result = on(INSN_READ, subdevice, channel, 1, 5, 0);
	row("%u.%u: read = %s %u", subdevice, channel, answer(result), data[0]);
}

static void set_bits(unsigned subdevice, unsigned channel, lsampl_t mask, lsampl_t bits)
{
	int result = on(INSN_BITS, subdevice, channel, 2, mask, bits);
	row("%u.%u: bits %x %x = %s %x %x", subdevice, channel, mask, bits, answer(result), data[0], data[1]);
}

static void use_channel(unsigned subdevice, unsigned channel)
{
	show_direction(subdevice, channel);
	show_level(subdevice, channel);
	for (unsigned value = 0; value < 3; value++) {
		row("%u.%u: write %u = %s", subdevice, channel, value, answer(on(INSN_WRITE, subdevice, channel, 1, value, 0)));
		show_level(subdevice, channel);
	}
	set_bits(subdevice, channel, 0xff, 0xa5);
	set_bits(subdevice, channel, 0, 0xff);
}

static void configure_channel(unsigned subdevice, unsigned channel, unsigned channels)
{
	static const unsigned numbers[] = { INSN_CONFIG_DIO_OUTPUT, INSN_CONFIG_DIO_INPUT, 2, 99 };
	for (size_t i = 0; i < LENGTH(numbers); i++) {
		row("%u.%u: configuration %u = %s", subdevice, channel, numbers[i],
			answer(on(INSN_CONFIG, subdevice, channel, 1, numbers[i], 0)));
		for (unsigned k = 0; k < channels; k++)
			show_direction(subdevice, k);
		set_bits(subdevice, 0, 0xff, 0x5a);
		on(INSN_BITS, subdevice, 0, 2, 0xff, 0);
		set_bits(subdevice, 0, 0, 0);
	}
}

static void count_values(unsigned subdevice)
{
	for (unsigned count = 0; count < 4; count++) {
		row("%u: bits of %u values = %s", subdevice, count, answer(on(INSN_BITS, subdevice, 0, count, -1, -1)));
		row("%u: write of %u values = %s", subdevice, count, answer(on(INSN_WRITE, subdevice, 0, count, 1, 1)));
		row("%u: read of %u values = %s", subdevice, count, answer(on(INSN_READ, subdevice, 0, count, 1, 1)));
	}
}

static void all(char **words)
{
	comedi_subdinfo s[16];
	comedi_devinfo d;
	(void)words;
	int result = ioctl(file, COMEDI_DEVINFO, &d);
	row("DEVINFO = %s, %u subdevices, read %d, write %d", answer(result), d.n_subdevs, d.read_subdevice, d.write_subdevice);
	ioctl(file, COMEDI_SUBDINFO, s);
	for (unsigned subdevice = 0; subdevice < d.n_subdevs; subdevice++) {
		unsigned channels = s[subdevice].n_chan < 9 ? s[subdevice].n_chan : 9;
		describe(subdevice, s + subdevice);
		for (unsigned channel = 0; channel <= channels; channel++)
			use_channel(subdevice, channel);
		for (unsigned channel = 0; channel < channels; channel++)
			configure_channel(subdevice, channel, channels);
		count_values(subdevice);
	}
}

int main(int argc, char **argv)
{
	static const struct part parts[] = { { "all", all } };
	const char *device = getenv("PROBE_DEVICE");
	(void)argc;
	file = open(device ? device : DEVICE, O_RDWR);
	if (file < 0)
		return 3;
	return run_part(parts, LENGTH(parts), argv, 120);
}

/* What the device says of itself: device, subdevices, channels, ranges, and the sizes and counts of idle buffers.
 *     questions PART */
#include "probe.h"

static unsigned bits_of(const unsigned *words, size_t count)
{
	unsigned bits = 0;
	for (size_t i = 0; i < count; i++)
		bits |= words[i];
	return bits;
}

/* Asks with pointers that lead nowhere. */
static void ask_at_bad_places(int file, const char *name, unsigned long request)
{
	row("%s at NULL = %s", name, answer(ioctl(file, request, NULL)));
	row("%s at 1 = %s", name, answer(ioctl(file, request, (void *)1)));
	row("%s at no page = %s", name, answer(ioctl(file, request, no_page)));
	row("%s at a page to read = %s", name, answer(ioctl(file, request, read_only_page)));
	memset(last_bytes, 0, 16);
	row("%s at the last bytes = %s", name, answer(ioctl(file, request, last_bytes)));
	row("%s at the kernel's memory = %s", name, answer(ioctl(file, request, (void *)0xffff888000000000ul)));
}

static void device(char **words)
{
	int file = open_device(O_RDWR);
	comedi_devinfo d;
	(void)words;
	memset(&d, 0xaa, sizeof d);
	int result = ioctl(file, COMEDI_DEVINFO, &d);
	row("DEVINFO = %s, version %#x, %u subdevices, read %d, write %d", answer(result), d.version_code, d.n_subdevs,
		d.read_subdevice, d.write_subdevice);
	row("board name = %.20s", d.board_name);
	row("driver name = %.20s", d.driver_name);
	row("unused words = %x", bits_of((unsigned *)d.unused, LENGTH(d.unused)));
	ask_at_bad_places(file, "DEVINFO", COMEDI_DEVINFO);
	close(file);
}

static void subdevices(char **words)
{
	int file = open_device(O_RDWR);
	comedi_subdinfo s[3];
	(void)words;
	memset(s, 0xaa, sizeof s);
	row("SUBDINFO = %s", answer(ioctl(file, COMEDI_SUBDINFO, s)));
	for (int i = 0; i < 2; i++) {
		row("SUBDINFO %d: type = %u", i, s[i].type);
		row("SUBDINFO %d: channels = %u", i, s[i].n_chan);
		row("SUBDINFO %d: flags = %#x", i, s[i].subd_flags);
		row("SUBDINFO %d: timer = %u", i, s[i].timer_type);
		row("SUBDINFO %d: list = %u", i, s[i].len_chanlist);
		row("SUBDINFO %d: greatest code = %u", i, s[i].maxdata);
		row("SUBDINFO %d: flags of channels = %#x", i, s[i].flags);
		row("SUBDINFO %d: range = %#x", i, s[i].range_type);
		row("SUBDINFO %d: settling = %u", i, s[i].settling_time_0);
		row("SUBDINFO %d: bits = %u", i, s[i].insn_bits_support);
		row("SUBDINFO %d: unused words = %x", i, bits_of(s[i].unused, LENGTH(s[i].unused)));
	}
	row("SUBDINFO 2 is left alone = %d", s[2].type == 0xaaaaaaaa);
	ask_at_bad_places(file, "SUBDINFO", COMEDI_SUBDINFO);
	close(file);
}

static void channels(char **words)
{
	static const unsigned numbers[] = { 0, 1, 2, 15, 16, 255, 256, 0x7fffffff, 0x80000000, 0xffffffff };
	int file = open_device(O_RDWR);
	(void)words;
	for (size_t n = 0; n < LENGTH(numbers); n++)
		for (int lists = 0; lists < 8; lists++) {
			unsigned list[16];
			memset(list, 0xaa, sizeof list);
			comedi_chaninfo c = { .subdev = numbers[n],
				.maxdata_list = lists & 1 ? list : NULL,
				.flaglist = lists & 2 ? list : NULL,
				.rangelist = lists & 4 ? list : NULL };
			int result = ioctl(file, COMEDI_CHANINFO, &c);
			row("CHANINFO of %u, lists %d = %s, %x %x", numbers[n], lists, answer(result), list[0], list[7]);
		}
	ask_at_bad_places(file, "CHANINFO", COMEDI_CHANINFO);
	close(file);
}

static void ranges(char **words)
{
	static const unsigned high[] = { 0x00, 0x01, 0x02, 0x03, 0x0f, 0x10, 0x11, 0x1f, 0x20, 0x7f, 0x80, 0xf0, 0xf1, 0xff };
	static const unsigned middle[] = { 0x00, 0x01, 0x07, 0x08, 0xff };
	static const unsigned low[] = { 0, 1, 2, 3, 0xff, 0x102, 0xffff };
	int file = open_device(O_RDWR);
	(void)words;
	for (size_t h = 0; h < LENGTH(high); h++)
		for (size_t m = 0; m < LENGTH(middle); m++)
			for (size_t l = 0; l < LENGTH(low); l++) {
				comedi_krange found[8];
				memset(found, 0xaa, sizeof found);
				comedi_rangeinfo asked = { high[h] << 24 | middle[m] << 16 | low[l], found };
				int result = ioctl(file, COMEDI_RANGEINFO, &asked);
				row("RANGEINFO %#010x = %s, %d to %d %x, %d to %d %x", asked.range_type, answer(result),
					found[0].min, found[0].max, found[0].flags, found[1].min, found[1].max, found[1].flags);
			}
	comedi_rangeinfo asked = { 2, NULL };
	row("RANGEINFO to NULL = %s", answer(ioctl(file, COMEDI_RANGEINFO, &asked)));
	asked.range_ptr = no_page;
	row("RANGEINFO to no page = %s", answer(ioctl(file, COMEDI_RANGEINFO, &asked)));
	asked.range_ptr = last_bytes;
	row("RANGEINFO to the last bytes = %s", answer(ioctl(file, COMEDI_RANGEINFO, &asked)));
	ask_at_bad_places(file, "RANGEINFO", COMEDI_RANGEINFO);
	close(file);
}

static void ask_size(int file, unsigned subdevice, unsigned most, unsigned size)
{
	comedi_bufconfig asked = { .subdevice = subdevice, .maximum_size = most, .size = size };
	int result = ioctl(file, COMEDI_BUFCONFIG, &asked);
	row("size of %u, most %u, size %u = %s, %u", subdevice, most, size, answer(result), asked.size);
	row("size of %u, most %u, size %u: most = %u", subdevice, most, size, asked.maximum_size);
}

static void sizes(char **words)
{
	static const unsigned some[] = { 0, 131072, 131071, 126977, 126976, 4096, 1, 2, 4095, 4097, 8192, 131073, 1 << 20,
		20 << 20, (20 << 20) + 1, 0x7fffffff, 0x80000000, 0xfffff000, 0xfffff001, 0xffffffff };
	static const unsigned strange[] = { 2, 15, 16, 255, 256, 0x7fffffff, 0xffffffff };
	int file = open_device(O_RDWR);
	(void)words;
	for (unsigned subdevice = 0; subdevice < 2; subdevice++)
		for (size_t i = 0; i < LENGTH(some); i++)
			ask_size(file, subdevice, 0, some[i]);
	set_buffers(file);
	for (size_t i = 0; i < LENGTH(strange); i++)
		ask_size(file, strange[i], 0, 0);
	ask_size(file, 0, 20 << 20, 0);
	ask_size(file, 0, 4096, 0);
	ask_size(file, 0, 0, 8192);
	ask_size(file, 0, 131072, 131072);
	ask_size(file, 0, 20 << 20, 131072);
	ask_at_bad_places(file, "size", COMEDI_BUFCONFIG);
	close(file);
}

static void counts(char **words)
{
	static const unsigned numbers[] = { 0, 1, 2, 3, 15, 16, 255, 256, 0x7fffffff, 0x80000000, 0xffffffff };
	static const unsigned bytes[] = { 0, 1, 4, 131072, 0x7fffffff, 0x80000000, 0xffffffff };
	int file = open_device(O_RDWR);
	comedi_bufinfo b;
	(void)words;
	for (size_t n = 0; n < LENGTH(numbers); n++)
		for (size_t r = 0; r < LENGTH(bytes); r++)
			for (size_t w = 0; w < LENGTH(bytes); w++)
				row("counts of %u, read %u, written %u = %s", numbers[n], bytes[r], bytes[w],
					answer(buffer_call(file, numbers[n], bytes[r], bytes[w], &b)));
	ask_at_bad_places(file, "counts", COMEDI_BUFINFO);
	close(file);
}

int main(int argc, char **argv)
{
	static const struct part parts[] = { { "device", device }, { "subdevices", subdevices }, { "channels", channels },
		{ "ranges", ranges }, { "sizes", sizes }, { "counts", counts } };
	(void)argc;
	make_pages();
	return run_part(parts, LENGTH(parts), argv, 120);
}

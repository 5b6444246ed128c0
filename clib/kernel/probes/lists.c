/* Lists of instructions.
 *     lists PART */
#include "probe.h"

#define MOST 70000

static comedi_insn list[MOST];
static lsampl_t data[6][4];
static int file;

static void empty(void)
{
	memset(list, 0, 8 * sizeof *list);
	memset(data, 0, sizeof data);
}

static void put(unsigned place, unsigned kind, unsigned subdevice, unsigned channel, unsigned count)
{
	list[place] = (comedi_insn){ .insn = kind, .n = count, .data = data[place], .subdev = subdevice, .chanspec = channel };
}

static void play(const char *what, unsigned count)
{
	comedi_insnlist whole = { .n_insns = count, .insns = list };
	int result = ioctl(file, COMEDI_INSNLIST, &whole);
	row("%s = %s, %x %x, %x %x, %x %x", what, answer(result), data[0][0], data[0][1], data[1][0], data[1][1], data[2][0],
		data[2][1]);
}

/* Plays one instruction on channel 6 of the output: a write of a value, or a reading. */
static void play_one(const char *what, unsigned kind, lsampl_t value)
{
	empty();
	data[0][0] = value;
	put(0, kind, OUTPUT, 6, 1);
	play(what, 1);
}

static void orders(char **words)
{
	(void)words;
	empty();
	play("none", 0);
	put(0, INSN_READ, INPUT, 4, 1);
	put(1, INSN_READ, INPUT, 5, 2);
	play("two readings", 2);
	empty();
	data[1][0] = 123;
	put(0, INSN_READ, INPUT, 5, 1);
	put(1, INSN_WRITE, OUTPUT, 6, 1);
	put(2, INSN_READ, OUTPUT, 6, 1);
	play("reading, write, reading back", 3);
	empty();
	put(0, INSN_READ, INPUT, 5, 1);
	put(1, INSN_READ, INPUT, 9, 1);
	put(2, INSN_READ, INPUT, 5, 1);
	play("a bad channel in the middle", 3);
	empty();
	put(0, INSN_READ, INPUT, 5, 0);
	put(1, INSN_READ, INPUT, 5, 1);
	play("a reading of none", 2);
	empty();
	put(0, INSN_READ, 7, 2, 1);
	play("a bad subdevice", 1);
	empty();
	put(0, INSN_GTOD, 0, 0, 2);
	put(1, INSN_WAIT, 0, 0, 1);
	data[1][0] = 1000;
	comedi_insnlist whole = { .n_insns = 2, .insns = list };
	row("time of day and wait = %s", answer(ioctl(file, COMEDI_INSNLIST, &whole)));
	play_one("put back", INSN_WRITE, MIDDLE);
}

static void failures(char **words)
{
	(void)words;
	play_one("first", INSN_WRITE, 77);
	empty();
	data[0][0] = 88;
	put(0, INSN_WRITE, OUTPUT, 6, 1);
	data[1][0] = 70000;
	put(1, INSN_WRITE, OUTPUT, 6, 1);
	play("a write that is refused after one that isn't", 2);
	play_one("what it left", INSN_READ, 0);
	empty();
	put(0, INSN_WRITE, OUTPUT, 6, 1);
	data[0][0] = 99;
	put(1, INSN_READ, INPUT, 5, 65537);
	play("a write before a reading of too many", 2);
	play_one("what it left", INSN_READ, 0);
	empty();
	put(0, INSN_WRITE, OUTPUT, 6, 1);
	put(1, INSN_READ, INPUT, 5, 1);
	list[1].data = no_page;
	put(2, INSN_READ, INPUT, 5, 1);
	play("a reading to no page in the middle", 3);
	play_one("what it left", INSN_READ, 0);
	empty();
	data[0][0] = 55;
	put(0, INSN_WRITE, OUTPUT, 6, 1);
	memcpy((char *)no_page - sizeof *list, list, sizeof *list);
	comedi_insnlist whole = { .n_insns = 2, .insns = (comedi_insn *)((char *)no_page - sizeof *list) };
	row("a list that ends at no page = %s", answer(ioctl(file, COMEDI_INSNLIST, &whole)));
	play_one("what it left", INSN_READ, 0);
	play_one("put back", INSN_WRITE, MIDDLE);
}

static void lengths(char **words)
{
	static const unsigned some[] = { 1, 2, 100, 1000, 65535, 65536, 65537, 0x7fffffff, 0x80000000, 0xffffffff };
	(void)words;
	for (unsigned i = 0; i < MOST; i++)
		list[i] = (comedi_insn){ .insn = INSN_READ, .n = 1, .data = data[0], .subdev = INPUT, .chanspec = 5 };
	for (size_t i = 0; i < LENGTH(some); i++) {
		char what[40];
		snprintf(what, sizeof what, "%u readings", some[i]);
		memset(data, 0, sizeof data);
		play(what, some[i]);
	}
}

static void pointers(char **words)
{
	static const unsigned counts[] = { 0, 1, 2, 65537 };
	void *places[] = { NULL, (void *)1, no_page, (void *)0xffff888000000000ul };
	(void)words;
	for (size_t p = 0; p < LENGTH(places); p++)
		for (size_t c = 0; c < LENGTH(counts); c++) {
			comedi_insnlist whole = { .n_insns = counts[c], .insns = places[p] };
			row("list %zu of bad pointers, %u of them = %s", p, counts[c],
				answer(ioctl(file, COMEDI_INSNLIST, &whole)));
		}
	for (size_t p = 0; p < LENGTH(places); p++)
		row("list at bad pointer %zu = %s", p, answer(ioctl(file, COMEDI_INSNLIST, places[p])));
}

int main(int argc, char **argv)
{
	static const struct part parts[] = { { "orders", orders }, { "failures", failures }, { "lengths", lengths },
		{ "pointers", pointers } };
	(void)argc;
	make_pages();
	file = open_device(O_RDWR);
	return run_part(parts, LENGTH(parts), argv, 120);
}

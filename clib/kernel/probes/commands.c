/* The test of a command, and commands that are refused.
 *     commands PART SUBDEVICE [SEED COUNT] */
#include "probe.h"

static const unsigned sources[] = { 0, TRIG_NONE, TRIG_NOW, TRIG_FOLLOW, TRIG_TIME, TRIG_TIMER, TRIG_COUNT, TRIG_EXT, TRIG_INT,
	TRIG_OTHER, TRIG_ANY, TRIG_NOW | TRIG_TIMER, TRIG_FOLLOW | TRIG_TIMER, TRIG_NONE | TRIG_COUNT, TRIG_NOW | TRIG_EXT,
	0x80000000, 0x400 };
static const unsigned arguments[] = { 0, 1, 2, 3, 4, 5, 7, 8, 9, 10, 16, 17, 499, 500, 501, 999, 1000, 1001, 1499, 1500, 1501,
	2000, 100000, 999999, 1000000, 0x7fffffff, 0x80000000, 3999999999u, 4000000000u, 4000000001u, 4294966295u, 4294966796u,
	4294967000u, 4294967294u, 4294967295u };
static const unsigned flag_sets[] = { 0, CMDF_BOGUS, 2, 4, CMDF_PRIORITY, 16, CMDF_WAKE_EOS, CMDF_WRITE, CMDF_RAWDATA, 0x100,
	0x8000, CMDF_ROUND_DOWN, CMDF_ROUND_UP, CMDF_ROUND_UP_NEXT, 0x40000000, 0x80000000, 0xffffffff };
static unsigned list[20];
static int file;
static unsigned subdevice;

static unsigned pick(const unsigned *from, size_t count) { return from[random_below(count)]; }

static comedi_cmd good(void)
{
	return subdevice == INPUT ? input_command(list, 2, 100000, 10) : output_command(list, 2, 100000, 10);
}

/* Tests a command, and twice more what the test has made of it. */
static void try(comedi_cmd command, const char *what)
{
	static const char *const names[] = { "", ", again", ", a third time" };
	for (size_t i = 0; i < LENGTH(names); i++) {
		int result = ioctl(file, COMEDI_CMDTEST, &command);
		row("%s%s = %s %s", what, names[i], answer(result), command_text(&command, list));
	}
}

static unsigned *field(comedi_cmd *command, unsigned number) { return &command->start_src + number; }

static void fields(char **words)
{
	static const char *const names[] = { "start", "start argument", "scan", "scan argument", "convert", "convert argument",
		"end", "end argument", "stop", "stop argument" };
	(void)words;
	for (unsigned f = 0; f < LENGTH(names); f++)
		for (size_t i = 0; i < (f % 2 ? LENGTH(arguments) : LENGTH(sources)); i++) {
			comedi_cmd command = good();
			char what[64];
			*field(&command, f) = f % 2 ? arguments[i] : sources[i];
			snprintf(what, sizeof what, "%s %#x", names[f], *field(&command, f));
			try(command, what);
		}
}

static void flags(char **words)
{
	(void)words;
	for (size_t i = 0; i < LENGTH(flag_sets); i++) {
		comedi_cmd command = good();
		char what[64];
		command.flags = flag_sets[i];
		command.data = (sampl_t *)&command;
		command.data_len = 7;
		snprintf(what, sizeof what, "flags %#x", flag_sets[i]);
		try(command, what);
	}
}

static void lists(char **words)
{
	static const unsigned lengths[] = { 0, 1, 8, 9, 16, 17, 1000, 0x7fffffff, 0x80000000, 0xffffffff };
	static const unsigned entries[] = { 8, 255, CR_PACK(0, 1, 0), CR_PACK(0, 2, 0), CR_PACK(0, 255, 0),
		CR_PACK(0, 0, AREF_DIFF), CR_PACK(0, 0, AREF_OTHER), 0xffffffff };
	(void)words;
	for (size_t i = 0; i < LENGTH(lengths); i++)
		for (int has_list = 0; has_list < 2; has_list++) {
			comedi_cmd command = good();
			char what[64];
			command.chanlist_len = command.scan_end_arg = lengths[i];
			command.chanlist = has_list ? list : NULL;
			snprintf(what, sizeof what, "length %u%s", lengths[i], has_list ? "" : " without a list");
			try(command, what);
		}
	for (size_t i = 0; i < LENGTH(entries); i++)
		for (int is_bad = 0; is_bad < 2; is_bad++) {
			comedi_cmd command = good();
			char what[64];
			list[1] = entries[i];
			command.scan_begin_arg = is_bad ? 5 : 100000;
			snprintf(what, sizeof what, "entry %#x%s", entries[i], is_bad ? ", a bad period" : "");
			try(command, what);
		}
}

static void pointers(char **words)
{
	static const unsigned numbers[] = { 2, 3, 15, 16, 255, 256, 0x7fffffff, 0x80000000, 0xffffffff };
	(void)words;
	for (size_t n = 0; n < LENGTH(numbers); n++) {
		comedi_cmd command = good();
		char what[64];
		command.subdev = numbers[n];
		snprintf(what, sizeof what, "subdevice %u", numbers[n]);
		try(command, what);
		row("command of %s = %s", what, answer(give(file, command)));
	}
	comedi_cmd command = good();
	command.chanlist = (unsigned *)1;
	try(command, "a list at 1");
	row("command of a list at 1 = %s", answer(give(file, command)));
	command.chanlist = no_page;
	try(command, "a list at no page");
	row("command of a list at no page = %s", answer(give(file, command)));
	command.data = no_page;
	command.chanlist = list;
	try(command, "data at no page");
	row("test at NULL = %s", answer(ioctl(file, COMEDI_CMDTEST, NULL)));
	row("command at NULL = %s", answer(ioctl(file, COMEDI_CMD, NULL)));
	row("test at no page = %s", answer(ioctl(file, COMEDI_CMDTEST, no_page)));
	row("command at no page = %s", answer(ioctl(file, COMEDI_CMD, no_page)));
	command.data = NULL;
	mprotect(read_only_page, 4096, PROT_READ | PROT_WRITE);
	memcpy(read_only_page, &command, sizeof command);
	mprotect(read_only_page, 4096, PROT_READ);
	row("test in a page to read = %s", answer(ioctl(file, COMEDI_CMDTEST, read_only_page)));
	row("command in a page to read = %s", answer(ioctl(file, COMEDI_CMD, read_only_page)));
	row("command in a page to read: busy = %d", strstr(state_of(file), "BUSY") != NULL);
	ioctl(file, COMEDI_CANCEL, subdevice);
}

/* What comes back of a command, and who is busy then. */
static void given(char **words)
{
	static const char *const names[] = { "good", "a bad period", "bogus", "an empty list", "no list" };
	(void)words;
	for (size_t i = 0; i < LENGTH(flag_sets); i++)
		for (size_t bad = 0; bad < LENGTH(names); bad++) {
			comedi_cmd command = good();
			command.flags = flag_sets[i] | (bad == 2 ? CMDF_BOGUS : 0);
			command.data = (sampl_t *)&command;
			command.data_len = 7;
			command.scan_begin_arg = bad == 1 ? 1234 : 100000;
			command.chanlist_len = bad == 3 ? 0 : 2;
			command.chanlist = bad == 4 ? NULL : list;
			int result = ioctl(file, COMEDI_CMD, &command);
			row("command of flags %#x, %s = %s %s", flag_sets[i], names[bad], answer(result),
				command_text(&command, list));
			row("command of flags %#x, %s: busy = %d", flag_sets[i], names[bad],
				strstr(state_of(file), "BUSY") != NULL);
			ioctl(file, COMEDI_CANCEL, subdevice);
		}
}

static void change(comedi_cmd *command)
{
	unsigned f = random_below(14);
	if (f < 10 && f % 2)
		*field(command, f) = random_below(3) ? pick(arguments, LENGTH(arguments)) :
				     random_below(3) ? random_below(10000) :
						       random_below(1 << 16) << 16 | random_below(1 << 16);
	else if (f < 10)
		*field(command, f) = pick(sources, LENGTH(sources));
	else if (f == 10)
		command->flags = pick(flag_sets, LENGTH(flag_sets));
	else if (f == 11)
		command->chanlist_len = 1 + random_below(17);
	else if (f == 12)
		command->chanlist_len = command->scan_end_arg = 1 + random_below(16);
	else
		command->convert_src = TRIG_TIMER, command->convert_arg = pick(arguments, LENGTH(arguments));
}

/* Good commands with up to four changes. */
static void changed(char **words)
{
	unsigned seed = words[1] ? atoi(words[1]) : 1, count = words[1] && words[2] ? atoi(words[2]) : 100;
	for (unsigned i = 0; i < count; i++) {
		char what[480];
		comedi_cmd command = good();
		seed_random(seed, i);
		for (unsigned left = 1 + random_below(4); left; left--)
			change(&command);
		snprintf(what, sizeof what, "%u %s", i, command_text(&command, list));
		try(command, what);
	}
}

int main(int argc, char **argv)
{
	static const struct part parts[] = { { "fields", fields }, { "flags", flags }, { "lists", lists },
		{ "pointers", pointers }, { "given", given }, { "changed", changed } };
	if (argc < 3)
		return 2;
	subdevice = atoi(argv[2]);
	make_pages();
	for (unsigned i = 0; i < LENGTH(list); i++)
		list[i] = CR_PACK(i % 8, 0, AREF_GROUND);
	file = open_device(O_RDWR);
	set_buffers(file);
	return run_part(parts, LENGTH(parts), argv, 300);
}

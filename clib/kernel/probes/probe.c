/* What the probes share: rows, commands, instructions, and pages that lead nowhere. */
#include "probe.h"
#include <stdarg.h>
#include <time.h>

void *no_page, *read_only_page, *last_bytes;

static const struct {
	int number;
	const char *name;
} errors[] = {
#define ERROR(name)                                                                                                              \
	{                                                                                                                        \
		name, #name                                                                                                      \
	}
	ERROR(EPERM),
	ERROR(ENOENT),
	ERROR(EINTR),
	ERROR(EIO),
	ERROR(ENXIO),
	ERROR(EBADF),
	ERROR(EAGAIN),
	ERROR(ENOMEM),
	ERROR(EACCES),
	ERROR(EFAULT),
	ERROR(EBUSY),
	ERROR(EEXIST),
	ERROR(EXDEV),
	ERROR(ENODEV),
	ERROR(ENOTDIR),
	ERROR(EINVAL),
	ERROR(ENFILE),
	ERROR(EMFILE),
	ERROR(ENOTTY),
	ERROR(ESPIPE),
	ERROR(EROFS),
	ERROR(EPIPE),
	ERROR(ERANGE),
	ERROR(ENOSYS),
	ERROR(ELOOP),
	ERROR(ENODATA),
	ERROR(EOVERFLOW),
	ERROR(EOPNOTSUPP),
	ERROR(ETIMEDOUT),
	ERROR(ENOTSOCK),
	ERROR(ENOTCONN),
};

const char *error_name(int error)
{
	static char other[16];
	for (size_t i = 0; i < LENGTH(errors); i++)
		if (errors[i].number == error)
			return errors[i].name;
	snprintf(other, sizeof other, "E%d", error);
	return other;
}

/* The next of eight texts, so that one row can have several. */
static char *next_text(size_t size)
{
	static char texts[8][480];
	static unsigned next;
	return size <= sizeof texts[0] ? texts[next++ % 8] : NULL;
}

const char *answer(long result)
{
	char *text = next_text(32);
	if (result == -1)
		snprintf(text, 32, "%s", error_name(errno));
	else
		snprintf(text, 32, "%ld", result);
	return text;
}

static void print_line(const char *before, const char *format, va_list values, const char *after)
{
	fputs(before, stdout);
	vprintf(format, values);
	puts(after);
	fflush(stdout);
}

void section(const char *format, ...)
{
	va_list values;
	va_start(values, format);
	print_line("[", format, values, "]");
	va_end(values);
}

void row(const char *format, ...)
{
	va_list values;
	va_start(values, format);
	print_line("", format, values, "");
	va_end(values);
}

int run_part(const struct part *parts, size_t count, char **words, unsigned seconds)
{
	alarm(seconds);
	for (size_t i = 0; words[1] && i < count; i++)
		if (!strcmp(parts[i].name, words[1])) {
			section("%s", parts[i].name);
			parts[i].run(words + 2);
			return 0;
		}
	fprintf(stderr, "%s: no such part\n", words[0]);
	return 2;
}

void sleep_milliseconds(int milliseconds)
{
	struct timespec time = { milliseconds / 1000, milliseconds % 1000 * 1000000l };
	while (nanosleep(&time, &time) && errno == EINTR)
		;
}

static unsigned subdevice_flags(int file, unsigned subdevice)
{
	comedi_subdinfo information[16];
	memset(information, 0, sizeof information);
	return ioctl(file, COMEDI_SUBDINFO, information) < 0 ? 0 : information[subdevice].subd_flags;
}

void await_end(int file, unsigned subdevice)
{
	for (int turn = 0; turn < 2500 && subdevice_flags(file, subdevice) & SDF_RUNNING; turn++)
		sleep_milliseconds(2);
}

int open_device(int flags)
{
	int file = open(DEVICE, flags);
	if (file >= 0)
		return file;
	row("open = %s", error_name(errno));
	exit(3);
}

void set_buffers(int file)
{
	for (unsigned subdevice = 0; subdevice < 2; subdevice++) {
		comedi_bufconfig asked = { .subdevice = subdevice, .size = BUFFER_BYTES };
		if (ioctl(file, COMEDI_BUFCONFIG, &asked) < 0)
			row("size of buffer %u = %s", subdevice, error_name(errno));
	}
}

const char *flags_text(unsigned flags)
{
	static const struct {
		unsigned bit;
		const char *name;
	} names[] = { { SDF_BUSY, "BUSY" }, { SDF_BUSY_OWNER, "BUSY_OWNER" }, { SDF_LOCKED, "LOCKED" },
		{ SDF_LOCK_OWNER, "LOCK_OWNER" }, { SDF_RUNNING, "RUNNING" } };
	char *text = next_text(120);
	*text = 0;
	for (size_t i = 0; i < LENGTH(names); i++)
		if (flags & names[i].bit)
			strcat(strcat(text, *text ? "|" : ""), names[i].name);
	return *text ? text : "-";
}

const char *state_of(int file)
{
	comedi_subdinfo information[16];
	char *text = next_text(300);
	memset(information, 0, sizeof information);
	if (ioctl(file, COMEDI_SUBDINFO, information) < 0)
		snprintf(text, 300, "%s", error_name(errno));
	else
		snprintf(text, 300, "ai:%s ao:%s", flags_text(information[0].subd_flags), flags_text(information[1].subd_flags));
	return text;
}

comedi_cmd input_command(unsigned *list, unsigned length, unsigned period, unsigned scans)
{
	return (comedi_cmd){
		.subdev = INPUT,
		.start_src = TRIG_NOW,
		.scan_begin_src = TRIG_TIMER,
		.scan_begin_arg = period,
		.convert_src = TRIG_NOW,
		.scan_end_src = TRIG_COUNT,
		.scan_end_arg = length,
		.stop_src = scans ? TRIG_COUNT : TRIG_NONE,
		.stop_arg = scans,
		.chanlist = list,
		.chanlist_len = length,
	};
}

comedi_cmd output_command(unsigned *list, unsigned length, unsigned period, unsigned scans)
{
	comedi_cmd command = input_command(list, length, period, scans);
	command.subdev = OUTPUT;
	command.start_src = TRIG_INT;
	return command;
}

const char *command_text(const comedi_cmd *command, const unsigned *list)
{
	char *text = next_text(400);
	snprintf(text, 400,
		"{sub %u flags %u start %x:%u scan %x:%u convert %x:%u end %x:%u stop %x:%u length %u list %s data %s/%u}",
		command->subdev, command->flags, command->start_src, command->start_arg, command->scan_begin_src,
		command->scan_begin_arg, command->convert_src, command->convert_arg, command->scan_end_src, command->scan_end_arg,
		command->stop_src, command->stop_arg, command->chanlist_len,
		command->chanlist == list ? "same" :
		command->chanlist         ? "other" :
					    "null",
		command->data ? "set" : "null", command->data_len);
	return text;
}

int give(int file, comedi_cmd command) { return ioctl(file, COMEDI_CMD, &command); }

void overrun(int file)
{
	unsigned list[16];
	for (size_t i = 0; i < LENGTH(list); i++)
		list[i] = 2;
	give(file, input_command(list, LENGTH(list), 1000, 0));
	await_end(file, INPUT);
}

int instruction(int file, unsigned kind, unsigned subdevice, unsigned channel, unsigned count, lsampl_t *data)
{
	comedi_insn one = { .insn = kind, .n = count, .data = data, .subdev = subdevice, .chanspec = channel };
	return ioctl(file, COMEDI_INSN, &one);
}

int trigger(int file, unsigned subdevice, unsigned number)
{
	lsampl_t data[1] = { number };
	return instruction(file, INSN_INTTRIG, subdevice, 0, 1, data);
}

int buffer_call(int file, unsigned subdevice, unsigned read, unsigned written, comedi_bufinfo *information)
{
	*information = (comedi_bufinfo){ .subdevice = subdevice, .bytes_read = read, .bytes_written = written };
	return ioctl(file, COMEDI_BUFINFO, information);
}

const char *poll_answer(int file, short events, int milliseconds)
{
	char *text = next_text(40);
	struct pollfd asked = { file, events, 0 };
	int result = poll(&asked, 1, milliseconds);
	snprintf(text, 40, "%s %x", answer(result), asked.revents);
	return text;
}

const char *map_answer(int file, size_t bytes, int protection, int flags, off_t offset)
{
	void *map = mmap(NULL, bytes, protection, flags, file, offset);
	if (map == MAP_FAILED)
		return error_name(errno);
	munmap(map, bytes);
	return "mapped";
}

static uint64_t random_state;

unsigned random_below(unsigned bound)
{
	random_state ^= random_state << 13;
	random_state ^= random_state >> 7;
	random_state ^= random_state << 17;
	return (random_state >> 20) % bound;
}

void seed_random(unsigned seed, unsigned place)
{
	random_state = 88172645463325252ull + (seed * 1000003ull + place) * 0x9e3779b97f4a7c15ull;
	for (int i = 0; i < 10; i++)
		random_below(2);
}

void make_pages(void)
{
	char *pages = mmap(NULL, 4 * 4096, PROT_READ | PROT_WRITE, MAP_PRIVATE | MAP_ANONYMOUS, -1, 0);
	munmap(pages + 4096, 4096);
	no_page = pages + 4096;
	last_bytes = pages + 4096 - 16;
	read_only_page = pages + 2 * 4096;
	mprotect(read_only_page, 4096, PROT_READ);
}

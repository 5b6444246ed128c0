/* The calls that are made in every state, and what each one answers. */
#include "operations.h"
#include <sys/uio.h>

#define MOST_BYTES (1 << 19)

int files[2];
unsigned written_before[2], read_before[2];

static char bytes_of_client[MOST_BYTES];
static unsigned good_list[] = { 2 }, bad_list[] = { 99 };

enum { A, B };

/* A call: its name, what makes it, by which of the two files, and up to three numbers. */
struct operation {
	const char *name;
	void (*make)(const struct operation *, char *said, size_t size);
	int by;
	unsigned first, second, third;
};

int read_bytes(int file, size_t bytes, char *said, size_t size)
{
	memset(bytes_of_client, 0xee, bytes < MOST_BYTES ? bytes : MOST_BYTES);
	long result = read(file, bytes_of_client, bytes);
	unsigned others = 0;
	for (long i = 0; i < result / 2; i++)
		others += ((sampl_t *)bytes_of_client)[i] != MIDDLE;
	snprintf(said, size, "%s others %u", answer(result), others);
	return result;
}

void say_counts(int file, unsigned subdevice, unsigned read, unsigned written, char *said, size_t size)
{
	comedi_bufinfo b;
	if (buffer_call(file, subdevice, read, written, &b)) {
		snprintf(said, size, "%s", answer(-1));
		return;
	}
	snprintf(said, size, "0 {read %u written %u wc %u wp %u rc %u rp %u}", b.bytes_read, b.bytes_written,
		b.buf_write_count - written_before[subdevice],
		(b.buf_write_ptr - written_before[subdevice] + BUFFER_BYTES) % BUFFER_BYTES,
		b.buf_read_count - read_before[subdevice],
		(b.buf_read_ptr - read_before[subdevice] + BUFFER_BYTES) % BUFFER_BYTES);
}

static void make_nothing(const struct operation *o, char *said, size_t size) { snprintf(said, size, "%u", o->first); }

static void make_read(const struct operation *o, char *said, size_t size) { read_bytes(files[o->by], o->first, said, size); }

static void make_read_to_nowhere(const struct operation *o, char *said, size_t size)
{
	snprintf(said, size, "%s", answer(read(files[o->by], no_page, o->first)));
}

static void make_write(const struct operation *o, char *said, size_t size)
{
	for (size_t i = 0; i < MOST_BYTES / 2; i++)
		((sampl_t *)bytes_of_client)[i] = MIDDLE;
	snprintf(said, size, "%s", answer(write(files[o->by], bytes_of_client, o->first)));
}

static void make_write_from_nowhere(const struct operation *o, char *said, size_t size)
{
	snprintf(said, size, "%s", answer(write(files[o->by], no_page, o->first)));
}

static void make_poll(const struct operation *o, char *said, size_t size)
{
	snprintf(said, size, "%s", poll_answer(files[o->by], o->first, 0));
}

static void make_counts(const struct operation *o, char *said, size_t size)
{
	say_counts(files[o->by], o->first, o->second, o->third, said, size);
}

static void make_request(const struct operation *o, char *said, size_t size)
{
	snprintf(said, size, "%s", answer(ioctl(files[o->by], o->first, o->second)));
}

/* first: CMD or CMDTEST; second: the subdevice; third: what is wrong with it */
enum { GOOD, BAD_CHANNEL, NO_LIST, EMPTY_LIST, LONG_LIST, BAD_PERIOD };

static void make_command(const struct operation *o, char *said, size_t size)
{
	unsigned *list = o->third == NO_LIST ? NULL : o->third == BAD_CHANNEL ? bad_list : good_list;
	unsigned many[17] = { 0 }, length = o->third == EMPTY_LIST ? 0 : 1, period = o->third == BAD_PERIOD ? 5 : SLOW;
	comedi_cmd command = o->second == INPUT ? input_command(list, length, period, 0) :
						  output_command(list, length, period, 0);
	if (o->third == LONG_LIST)
		command.chanlist = many, command.chanlist_len = command.scan_end_arg = LENGTH(many);
	snprintf(said, size, "%s", answer(ioctl(files[o->by], o->first, &command)));
}

/* first: the kind; second: the subdevice; third: the channel, or the number of a trigger */
static void make_instruction(const struct operation *o, char *said, size_t size)
{
	lsampl_t data[4] = { MIDDLE, MIDDLE, 0, 0 };
	unsigned count = o->first == INSN_BITS || o->first == INSN_GTOD ? 2 : 1, channel = o->third;
	if (o->first == INSN_INTTRIG || o->first == INSN_CONFIG || o->first == INSN_WAIT)
		data[0] = o->third, channel = 0;
	snprintf(said, size, "%s", answer(instruction(files[o->by], o->first, o->second, channel, count, data)));
}

static void make_size(const struct operation *o, char *said, size_t size)
{
	comedi_bufconfig asked = { .subdevice = o->second, .size = o->first };
	int result = ioctl(files[o->by], COMEDI_BUFCONFIG, &asked);
	snprintf(said, size, "%s", answer(result));
	asked = (comedi_bufconfig){ .subdevice = o->second, .size = BUFFER_BYTES };
	if (!result)
		ioctl(files[o->by], COMEDI_BUFCONFIG, &asked);
}

static void make_close(const struct operation *o, char *said, size_t size)
{
	snprintf(said, size, "%s", answer(close(files[o->by])));
	files[o->by] = open_device(O_RDWR | O_NONBLOCK);
}

static void make_read_in_pieces(const struct operation *o, char *said, size_t size)
{
	struct iovec pieces[] = { { bytes_of_client, o->first }, { bytes_of_client + 100, 0 },
		{ bytes_of_client + 200, o->second } };
	snprintf(said, size, "%s", answer(readv(files[o->by], pieces, 3)));
}

static void make_write_in_pieces(const struct operation *o, char *said, size_t size)
{
	struct iovec pieces[] = { { bytes_of_client, o->first }, { bytes_of_client + 200, o->second } };
	snprintf(said, size, "%s", answer(writev(files[o->by], pieces, 2)));
}

static void make_map(const struct operation *o, char *said, size_t size)
{
	snprintf(said, size, "%s", map_answer(files[o->by], 4096, o->first ? PROT_READ | PROT_WRITE : PROT_READ, MAP_SHARED, 0));
}

static const struct operation operations[] = {
	{ "nothing", make_nothing, A, 0, 0, 0 },
	{ "read 0", make_read, A, 0, 0, 0 },
	{ "read 1", make_read, A, 1, 0, 0 },
	{ "read 2", make_read, A, 2, 0, 0 },
	{ "read 3", make_read, A, 3, 0, 0 },
	{ "read 4", make_read, A, 4, 0, 0 },
	{ "read 7", make_read, A, 7, 0, 0 },
	{ "read 20", make_read, A, 20, 0, 0 },
	{ "read 21", make_read, A, 21, 0, 0 },
	{ "read 400000", make_read, A, 400000, 0, 0 },
	{ "read to nowhere", make_read_to_nowhere, A, 4, 0, 0 },
	{ "read 0 to nowhere", make_read_to_nowhere, A, 0, 0, 0 },
	{ "B read 0", make_read, B, 0, 0, 0 },
	{ "B read 4", make_read, B, 4, 0, 0 },
	{ "write 0", make_write, A, 0, 0, 0 },
	{ "write 1", make_write, A, 1, 0, 0 },
	{ "write 2", make_write, A, 2, 0, 0 },
	{ "write 3", make_write, A, 3, 0, 0 },
	{ "write 7", make_write, A, 7, 0, 0 },
	{ "write 4000", make_write, A, 4000, 0, 0 },
	{ "write 400000", make_write, A, 400000, 0, 0 },
	{ "write from nowhere", make_write_from_nowhere, A, 4, 0, 0 },
	{ "B write 4", make_write, B, 4, 0, 0 },
	{ "poll", make_poll, A, POLLIN | POLLOUT | POLLPRI, 0, 0 },
	{ "poll out", make_poll, A, POLLOUT, 0, 0 },
	{ "B poll", make_poll, B, POLLIN | POLLOUT | POLLPRI, 0, 0 },
	{ "counts of ai", make_counts, A, INPUT, 0, 0 },
	{ "counts of ai, read 1", make_counts, A, INPUT, 1, 0 },
	{ "counts of ai, read 2", make_counts, A, INPUT, 2, 0 },
	{ "counts of ai, read 3", make_counts, A, INPUT, 3, 0 },
	{ "counts of ai, read 4", make_counts, A, INPUT, 4, 0 },
	{ "counts of ai, read 20", make_counts, A, INPUT, 20, 0 },
	{ "counts of ai, read 1000000", make_counts, A, INPUT, 1000000, 0 },
	{ "counts of ai, written 4", make_counts, A, INPUT, 0, 4 },
	{ "counts of ao", make_counts, A, OUTPUT, 0, 0 },
	{ "counts of ao, written 2", make_counts, A, OUTPUT, 0, 2 },
	{ "counts of ao, written 3", make_counts, A, OUTPUT, 0, 3 },
	{ "counts of ao, written 1000000", make_counts, A, OUTPUT, 0, 1000000 },
	{ "counts of ao, read 4", make_counts, A, OUTPUT, 4, 0 },
	{ "B counts of ai", make_counts, B, INPUT, 0, 0 },
	{ "B counts of ao, written 2", make_counts, B, OUTPUT, 0, 2 },
	{ "cancel ai", make_request, A, COMEDI_CANCEL, INPUT, 0 },
	{ "cancel ao", make_request, A, COMEDI_CANCEL, OUTPUT, 0 },
	{ "B cancel ai", make_request, B, COMEDI_CANCEL, INPUT, 0 },
	{ "B cancel ao", make_request, B, COMEDI_CANCEL, OUTPUT, 0 },
	{ "lock ai", make_request, A, COMEDI_LOCK, INPUT, 0 },
	{ "lock ao", make_request, A, COMEDI_LOCK, OUTPUT, 0 },
	{ "B lock ai", make_request, B, COMEDI_LOCK, INPUT, 0 },
	{ "B lock ao", make_request, B, COMEDI_LOCK, OUTPUT, 0 },
	{ "unlock ai", make_request, A, COMEDI_UNLOCK, INPUT, 0 },
	{ "unlock ao", make_request, A, COMEDI_UNLOCK, OUTPUT, 0 },
	{ "B unlock ai", make_request, B, COMEDI_UNLOCK, INPUT, 0 },
	{ "B unlock ao", make_request, B, COMEDI_UNLOCK, OUTPUT, 0 },
	{ "command ai", make_command, A, COMEDI_CMD, INPUT, GOOD },
	{ "B command ai", make_command, B, COMEDI_CMD, INPUT, GOOD },
	{ "command ai of a bad channel", make_command, A, COMEDI_CMD, INPUT, BAD_CHANNEL },
	{ "command ai without a list", make_command, A, COMEDI_CMD, INPUT, NO_LIST },
	{ "command ai of an empty list", make_command, A, COMEDI_CMD, INPUT, EMPTY_LIST },
	{ "command ai of a list of 17", make_command, A, COMEDI_CMD, INPUT, LONG_LIST },
	{ "command ai of a bad period", make_command, A, COMEDI_CMD, INPUT, BAD_PERIOD },
	{ "command ao", make_command, A, COMEDI_CMD, OUTPUT, GOOD },
	{ "B command ao", make_command, B, COMEDI_CMD, OUTPUT, GOOD },
	{ "command ao of a bad channel", make_command, A, COMEDI_CMD, OUTPUT, BAD_CHANNEL },
	{ "test ai", make_command, A, COMEDI_CMDTEST, INPUT, GOOD },
	{ "B test ai of a bad channel", make_command, B, COMEDI_CMDTEST, INPUT, BAD_CHANNEL },
	{ "instruction read ai", make_instruction, A, INSN_READ, INPUT, 2 },
	{ "B instruction read ai", make_instruction, B, INSN_READ, INPUT, 2 },
	{ "instruction read ai of a bad channel", make_instruction, A, INSN_READ, INPUT, 99 },
	{ "B instruction read ai of a bad channel", make_instruction, B, INSN_READ, INPUT, 99 },
	{ "instruction write ao", make_instruction, A, INSN_WRITE, OUTPUT, 5 },
	{ "B instruction write ao", make_instruction, B, INSN_WRITE, OUTPUT, 5 },
	{ "instruction read ao", make_instruction, A, INSN_READ, OUTPUT, 5 },
	{ "instruction bits ai", make_instruction, A, INSN_BITS, INPUT, 0 },
	{ "instruction config ao", make_instruction, A, INSN_CONFIG, OUTPUT, 0 },
	{ "instruction wait", make_instruction, A, INSN_WAIT, INPUT, 1000 },
	{ "trigger ai", make_instruction, A, INSN_INTTRIG, INPUT, 0 },
	{ "trigger ao", make_instruction, A, INSN_INTTRIG, OUTPUT, 0 },
	{ "trigger ao by 1", make_instruction, A, INSN_INTTRIG, OUTPUT, 1 },
	{ "B trigger ao", make_instruction, B, INSN_INTTRIG, OUTPUT, 0 },
	{ "ask ai for its samples", make_request, A, COMEDI_POLL, INPUT, 0 },
	{ "ask ao for its samples", make_request, A, COMEDI_POLL, OUTPUT, 0 },
	{ "B ask ai for its samples", make_request, B, COMEDI_POLL, INPUT, 0 },
	{ "read from 0", make_request, A, COMEDI_SETRSUBD, 0, 0 },
	{ "read from 1", make_request, A, COMEDI_SETRSUBD, 1, 0 },
	{ "write to 1", make_request, A, COMEDI_SETWSUBD, 1, 0 },
	{ "instruction gtod", make_instruction, A, INSN_GTOD, INPUT, 0 },
	{ "same size of ai", make_size, A, BUFFER_BYTES, INPUT, 0 },
	{ "same size of ao", make_size, A, BUFFER_BYTES, OUTPUT, 0 },
	{ "B size of ai", make_size, B, 65536, INPUT, 0 },
	{ "map for reading", make_map, A, 0, 0, 0 },
	{ "map for writing", make_map, A, 1, 0, 0 },
	{ "close A, open again", make_close, A, 0, 0, 0 },
	{ "close B, open again", make_close, B, 0, 0, 0 },
	{ "read in pieces of 2, 0, 4", make_read_in_pieces, A, 2, 4, 0 },
	{ "read in pieces of 3, 0, 3", make_read_in_pieces, A, 3, 3, 0 },
	{ "write in pieces of 2, 4", make_write_in_pieces, A, 2, 4, 0 },
	{ "write in pieces of 1, 3", make_write_in_pieces, A, 1, 3, 0 },
};

unsigned operations_count(void) { return LENGTH(operations); }

void operate(unsigned number, char *name, char *said, size_t size)
{
	const struct operation *o = operations + number;
	snprintf(name, size, "%s", o->name);
	o->make(o, said, size);
}

/* Whole inputs: totals, ends, and whether the waves go on without a gap. What depends on time isn't printed: how many bytes
 * one read gets, and where in its period a wave begins.
 *     streams PART */
#include "probe.h"
#include <sys/epoll.h>
#include <sys/select.h>

/* both waves have a period of 100 ms and go from -1 V to 1 V */
#define PERIOD 100000
#define FALL 3000

static sampl_t samples[1 << 19];
static unsigned three[] = { 0, 1, 2 };

/* How often channel 0, a saw, falls, and how often it goes up by another step than its slope allows. */
static void check_saw(const char *what, size_t scans, unsigned channels, unsigned step)
{
	double slope = 6553.5 * step / PERIOD, periods = (double)scans * step / PERIOD;
	unsigned falls = 0, jumps = 0;
	for (size_t i = 1; i < scans; i++) {
		int rise = samples[i * channels] - samples[(i - 1) * channels];
		if (rise < -FALL)
			falls++;
		else if (rise < (int)slope - 1 || rise > (int)slope + 2)
			jumps++;
	}
	row("%s: jumps of the saw = %u", what, jumps);
	row("%s: falls of the saw fit = %d", what, falls >= periods - 1.01 && falls <= periods + 1.01);
}

/* How often channel 1, a square, has neither of its levels, and whether it changes as often as its period says. */
static void check_square(const char *what, size_t scans, unsigned channels, unsigned step)
{
	double periods = (double)scans * step / PERIOD;
	unsigned wrong = 0, changes = 0;
	for (size_t i = 0; i < scans; i++) {
		unsigned code = samples[i * channels + 1];
		wrong += !((code >= 29490 && code <= 29491) || (code >= 36043 && code <= 36044));
		changes += i && abs((int)code - samples[(i - 1) * channels + 1]) > FALL;
	}
	row("%s: other levels of the square = %u", what, wrong);
	row("%s: changes of the square fit = %d", what, changes >= 2 * periods - 1.01 && changes <= 2 * periods + 1.01);
}

/* The shape of scans every `step` microseconds, of a saw, a square if there are two channels, and then flat ones. */
static void check_shape(const char *what, size_t scans, unsigned channels, unsigned step)
{
	unsigned others = 0;
	row("%s: scans = %zu", what, scans);
	check_saw(what, scans, channels, step);
	if (channels > 1)
		check_square(what, scans, channels, step);
	for (size_t i = 0; i < scans; i++)
		for (unsigned k = 2; k < channels; k++)
			others += samples[i * channels + k] != MIDDLE;
	row("%s: others of the flat ones = %u", what, others);
}

/* Reads in pieces until nothing comes or there is no room. Returns the bytes, and how the last read ended. */
static ssize_t read_all(int file, size_t piece, ssize_t *last)
{
	char *to = (char *)samples;
	ssize_t done = 0;
	while (done + piece <= sizeof samples && (*last = read(file, to + done, piece)) > 0)
		done += *last;
	return done;
}

static void pieces(char **words)
{
	static const unsigned sizes[] = { 1, 2, 3, 5, 6, 7, 100, 1000, 4095, 4096, 65536, 400000 };
	(void)words;
	for (size_t i = 0; i < LENGTH(sizes); i++) {
		int file = open_device(O_RDWR);
		char what[60];
		ssize_t last = 0;
		set_buffers(file);
		snprintf(what, sizeof what, "pieces of %u", sizes[i]);
		row("%s: command = %s", what, answer(give(file, input_command(three, 3, 1000000, 400))));
		ssize_t bytes = read_all(file, sizes[i], &last);
		row("%s: bytes = %zd", what, bytes);
		row("%s: last = %zd", what, last);
		check_shape(what, bytes / 6, 3, 1000);
		row("%s: read after the end = %s", what, answer(read(file, samples, 2)));
		row("%s: state = %s", what, state_of(file));
		close(file);
	}
}

/* How reads that wait are answered: never with more than was asked for, nor with 0 before the end. */
static void waiting(char **words)
{
	static const unsigned flags[] = { 0, CMDF_WAKE_EOS, CMDF_RAWDATA };
	(void)words;
	for (size_t i = 0; i < LENGTH(flags); i++) {
		int file = open_device(O_RDWR);
		comedi_cmd command = input_command(three, 3, 500000, 300);
		unsigned over = 0, odd = 0;
		ssize_t bytes = 0, result;
		set_buffers(file);
		command.flags = flags[i];
		row("flags %u: command = %s", flags[i], answer(give(file, command)));
		for (; (result = read(file, (char *)samples + bytes, 100)) > 0; bytes += result) {
			over += result > 100;
			odd += result % 2;
		}
		row("flags %u: bytes = %zd", flags[i], bytes);
		row("flags %u: last = %s", flags[i], answer(result));
		row("flags %u: more than asked for = %u", flags[i], over);
		row("flags %u: no whole samples = %u", flags[i], odd);
		check_shape("all", bytes / 6, 3, 500);
		close(file);
	}
}

static void not_waiting(char **words)
{
	int file = open_device(O_RDWR | O_NONBLOCK), again = 0;
	ssize_t bytes = 0, result;
	(void)words;
	set_buffers(file);
	row("command = %s", answer(give(file, input_command(three, 3, 1000000, 200))));
	while ((result = read(file, (char *)samples + bytes, 6)) > 0 || (result < 0 && errno == EAGAIN)) {
		bytes += result > 0 ? result : 0;
		again += result < 0;
		if (result < 0)
			sleep_milliseconds(3);
	}
	row("bytes = %zd", bytes);
	row("last = %s", answer(result));
	row("EAGAIN came = %d", again > 0);
	check_shape("all", bytes / 6, 3, 1000);
	close(file);
}

/* Waits in one of three ways until a file can be read. Returns how many files can be. */
static int await_samples(int file, int set, int way)
{
	fd_set reads;
	struct timeval time = { 2, 0 };
	struct pollfd asked = { file, POLLIN, 0 };
	struct epoll_event event;
	FD_ZERO(&reads);
	FD_SET(file, &reads);
	if (way == 0)
		return select(file + 1, &reads, NULL, NULL, &time);
	return way == 1 ? poll(&asked, 1, 2000) : epoll_wait(set, &event, 1, 2000);
}

static void loops(char **words)
{
	static const char *const names[] = { "select", "poll", "epoll" };
	(void)words;
	for (int way = 0; way < 3; way++) {
		int file = open_device(O_RDWR | O_NONBLOCK), set = epoll_create1(0), empty = 0, others = 0;
		struct epoll_event event = { .events = EPOLLIN };
		ssize_t bytes = 0, result = 1;
		set_buffers(file);
		epoll_ctl(set, EPOLL_CTL_ADD, file, &event);
		give(file, input_command(three, 3, 2000000, 100));
		while (result) {
			others += await_samples(file, set, way) != 1;
			result = read(file, (char *)samples + bytes, 60);
			empty += result < 0;
			bytes += result > 0 ? result : 0;
		}
		row("%s: bytes = %zd", names[way], bytes);
		row("%s: waits for nothing = %d", names[way], others);
		row("%s: reads of nothing = %d", names[way], empty);
		check_shape(names[way], bytes / 6, 3, 2000);
		close(set);
		close(file);
	}
}

/* An overrun, and what each call says of it: number `way` of them. */
static void say_overrun(int file, int way)
{
	comedi_bufinfo b;
	int result;
	if (way == 1) {
		result = buffer_call(file, INPUT, 0, 0, &b);
		row("1: counts = %s wc %u rc %u wp %u rp %u", answer(result), b.buf_write_count, b.buf_read_count,
			b.buf_write_ptr, b.buf_read_ptr);
		row("1: ask for samples = %s", answer(ioctl(file, COMEDI_POLL, INPUT)));
	} else if (way == 2) {
		row("2: read 0 = %s", answer(read(file, samples, 0)));
	} else if (way == 3) {
		result = buffer_call(file, INPUT, 1 << 20, 0, &b);
		row("3: counts that take all = %s %u", answer(result), b.bytes_read);
		row("3: state = %s", state_of(file));
		row("3: counts = %s", answer(buffer_call(file, INPUT, 0, 0, &b)));
		row("3: state = %s", state_of(file));
		row("3: counts again = %s", answer(buffer_call(file, INPUT, 0, 0, &b)));
	}
}

static void overruns(char **words)
{
	unsigned list[16] = { 0, 2, 2, 2, 2, 2, 2, 2, 2, 2, 2, 2, 2, 2, 2, 2 };
	(void)words;
	for (int way = 0; way < 6; way++) {
		int file = open_device(O_RDWR | O_NONBLOCK);
		char what[20];
		ssize_t last = 0;
		set_buffers(file);
		snprintf(what, sizeof what, "%d", way);
		row("%s: command = %s", what, answer(give(file, input_command(list, 16, 10000, way == 5 ? 5000 : 0))));
		await_end(file, INPUT);
		row("%s: state = %s", what, state_of(file));
		row("%s: poll = %s", what, poll_answer(file, POLLIN | POLLOUT | POLLERR | POLLHUP, 0));
		say_overrun(file, way);
		ssize_t bytes = read_all(file, way == 0 ? 400000 : 1000, &last);
		row("%s: last = %s", what, answer(last));
		row("%s: bytes = %zd", what, bytes);
		if (bytes)
			check_saw(what, bytes / 32, 16, 10);
		row("%s: state = %s", what, state_of(file));
		row("%s: read = %s", what, answer(read(file, samples, 2)));
		row("%s: cancel = %s", what, answer(ioctl(file, COMEDI_CANCEL, INPUT)));
		row("%s: next command = %s", what, answer(give(file, input_command(three, 3, 100000, 10))));
		await_end(file, INPUT);
		row("%s: read = %s", what, answer(read(file, samples, 1000)));
		row("%s: read = %s", what, answer(read(file, samples, 1000)));
		close(file);
	}
}

/* Takes all samples out of a map, by their counts or by their pointers. Returns how many, and what ended it. */
static size_t take_mapped(int file, const sampl_t *map, int by_pointer, int *end)
{
	comedi_bufinfo b;
	size_t done = 0;
	unsigned wrong = 0, last = 0;
	while (!(*end = buffer_call(file, INPUT, 0, 0, &b))) {
		unsigned count = (b.buf_write_count - b.buf_read_count) / 2,
			 first = (by_pointer ? b.buf_read_ptr : b.buf_read_count) / 2;
		wrong += b.buf_write_count < last || b.buf_write_count - b.buf_read_count > BUFFER_BYTES;
		wrong += b.buf_write_ptr != b.buf_write_count % BUFFER_BYTES || b.buf_read_ptr != b.buf_read_count % BUFFER_BYTES;
		last = b.buf_write_count;
		for (unsigned i = 0; i < count && done < LENGTH(samples); i++)
			samples[done++] = map[(first + i) % (BUFFER_BYTES / 2)];
		if (!count)
			sleep_milliseconds(2);
		else if ((*end = buffer_call(file, INPUT, count * 2, 0, &b)))
			break;
		else
			wrong += b.bytes_read != count * 2;
	}
	row("wrong counts = %u", wrong);
	return done;
}

static void mapped(char **words)
{
	int file = open_device(O_RDWR), end;
	unsigned many[16] = { 0, 1, 2, 2, 2, 2, 2, 2, 2, 2, 2, 2, 2, 2, 2, 2 };
	(void)words;
	set_buffers(file);
	sampl_t *map = mmap(NULL, BUFFER_BYTES, PROT_READ, MAP_SHARED, file, 0);
	row("map = %s", map == MAP_FAILED ? error_name(errno) : "mapped");
	row("slow: command = %s", answer(give(file, input_command(three, 3, 5000000, 30))));
	size_t count = take_mapped(file, map, 0, &end);
	row("slow: end = %s", answer(end));
	check_shape("slow", count / 3, 3, 5000);
	row("slow: state = %s", state_of(file));
	row("round the buffer: command = %s", answer(give(file, input_command(many, 16, 100000, 10000))));
	count = take_mapped(file, map, 1, &end);
	row("round the buffer: end = %s", answer(end));
	check_shape("round the buffer", count / 16, 16, 100);
	row("read: command = %s", answer(give(file, input_command(three, 3, 100000, 100))));
	await_end(file, INPUT);
	ssize_t bytes = read(file, samples, 600);
	row("read: bytes = %zd", bytes);
	row("read: as in the map = %d", bytes > 0 && !memcmp(samples, map, bytes));
	ioctl(file, COMEDI_CANCEL, INPUT);
	sampl_t before = map[2];
	close(file);
	row("the map stays after the close = %d", map[2] == before);
	munmap(map, BUFFER_BYTES);
}

int main(int argc, char **argv)
{
	static const struct part parts[] = { { "pieces", pieces }, { "waiting", waiting }, { "not_waiting", not_waiting },
		{ "loops", loops }, { "overruns", overruns }, { "mapped", mapped } };
	(void)argc;
	return run_part(parts, LENGTH(parts), argv, 120);
}

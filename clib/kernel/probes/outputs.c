/* Outputs: how many words are taken, how a command ends, and what the output keeps.
 *     outputs PART */
#include "probe.h"

static unsigned list[] = { 0, 1 };
static sampl_t words_of_client[1 << 18];
static int file;

static const char *kept(void)
{
	static char text[60];
	lsampl_t first[1] = { 0 }, second[1] = { 0 };
	if (instruction(file, INSN_READ, OUTPUT, 0, 1, first) < 0 || instruction(file, INSN_READ, OUTPUT, 1, 1, second) < 0)
		return error_name(errno);
	snprintf(text, sizeof text, "%u %u", first[0], second[0]);
	return text;
}

static void look(const char *what)
{
	comedi_bufinfo b;
	row("%s: poll = %s", what, poll_answer(file, POLLIN | POLLOUT, 0));
	row("%s: state = %s", what, state_of(file));
	row("%s: kept = %s", what, kept());
	int result = buffer_call(file, OUTPUT, 0, 0, &b);
	row("%s: counts = %s wc %u rc %u", what, answer(result), b.buf_write_count, b.buf_read_count);
	row("%s: state after them = %s", what, state_of(file));
	row("%s: kept after them = %s", what, kept());
	row("%s: write = %s", what, answer(write(file, words_of_client, 4)));
}

/* A command of so many scans gets so many bytes in pieces, is triggered and ends. */
static void put_out(const char *what, unsigned scans, size_t bytes, size_t piece)
{
	size_t done = 0;
	ssize_t result = 1;
	row("%s: command = %s", what, answer(give(file, output_command(list, 2, 100000, scans))));
	for (; done < bytes && result > 0; done += result > 0 ? result : 0)
		result = write(file, (char *)words_of_client + done, bytes - done < piece ? bytes - done : piece);
	row("%s: written = %zu", what, done);
	row("%s: trigger by 5 = %s", what, answer(trigger(file, OUTPUT, 5)));
	row("%s: trigger = %s", what, answer(trigger(file, OUTPUT, 0)));
	row("%s: trigger again = %s", what, answer(trigger(file, OUTPUT, 0)));
	await_end(file, OUTPUT);
	look(what);
}

static void ends(char **words)
{
	(void)words;
	put_out("more words than scans", 100, 4000, 4000);
	put_out("as many words as scans", 100, 400, 400);
	put_out("fewer words than scans", 100, 40, 40);
	put_out("half a scan", 100, 42, 42);
	put_out("a byte too many", 10, 41, 41);
	put_out("a byte too few", 10, 39, 39);
	put_out("byte by byte", 10, 40, 1);
	put_out("in pieces of three", 10, 40, 3);
	put_out("no word", 10, 0, 1);
	put_out("without a stop", 0, 40, 40);
}

static void reports(char **words)
{
	(void)words;
	for (int way = 0; way < 3; way++) {
		char what[20];
		snprintf(what, sizeof what, "%d", way);
		give(file, output_command(list, 2, 100000, way == 2 ? 10 : 100));
		write(file, words_of_client, 40);
		trigger(file, OUTPUT, 0);
		await_end(file, OUTPUT);
		if (way == 1)
			row("%s: write from no page = %s", what, answer(write(file, no_page, 4)));
		row("%s: write 0 = %s", what, answer(write(file, words_of_client, 0)));
		row("%s: state = %s", what, state_of(file));
		row("%s: write = %s", what, answer(write(file, words_of_client, 2)));
		row("%s: state = %s", what, state_of(file));
		ioctl(file, COMEDI_CANCEL, OUTPUT);
	}
}

static void full(char **words)
{
	ssize_t done = 0, result;
	(void)words;
	row("command = %s", answer(give(file, output_command(list, 2, SLOW, 0))));
	while ((result = write(file, words_of_client, 50000)) > 0)
		done += result;
	row("written = %zd", done);
	row("last = %s", answer(result));
	row("poll = %s", poll_answer(file, POLLIN | POLLOUT, 0));
	row("poll for room = %s", poll_answer(file, POLLOUT, 20));
	row("write 1 = %s", answer(write(file, words_of_client, 1)));
	row("write from no page = %s", answer(write(file, no_page, 2)));
	row("cancel = %s", answer(ioctl(file, COMEDI_CANCEL, OUTPUT)));
	row("trigger after it = %s", answer(trigger(file, OUTPUT, 0)));
	row("write after it = %s", answer(write(file, words_of_client, 4)));
}

static void mark(unsigned bytes)
{
	comedi_bufinfo b;
	int result = buffer_call(file, OUTPUT, 0, bytes, &b);
	row("mark %u = %s written %u wc %u rc %u wp %u rp %u", bytes, answer(result), b.bytes_written, b.buf_write_count,
		b.buf_read_count, b.buf_write_ptr, b.buf_read_ptr);
}

static void mapped(char **words)
{
	(void)words;
	sampl_t *map = mmap(NULL, BUFFER_BYTES, PROT_READ | PROT_WRITE, MAP_SHARED, file, 0);
	row("map = %s", map == MAP_FAILED ? error_name(errno) : "mapped");
	if (map == MAP_FAILED)
		return;
	row("command = %s", answer(give(file, output_command(list, 2, 100000, 50))));
	for (int i = 0; i < 100; i++)
		map[i] = 1000 + i;
	mark(119);
	mark(1);
	mark(80);
	mark(0);
	row("trigger = %s", answer(trigger(file, OUTPUT, 0)));
	await_end(file, OUTPUT);
	row("state = %s", state_of(file));
	mark(2);
	row("kept = %s", kept());
	munmap(map, BUFFER_BYTES);
}

/* A write that waits for room, of more than the buffer holds. */
static void waiting(char **words)
{
	(void)words;
	fcntl(file, F_SETFL, 0);
	row("command = %s", answer(give(file, output_command(list, 2, 20000, 60000))));
	ssize_t result = write(file, words_of_client, 400000), done = result;
	row("first write = %s", answer(result));
	row("trigger = %s", answer(trigger(file, OUTPUT, 0)));
	while (done < 240000 && (result = write(file, (char *)words_of_client + done, 240000 - done)) > 0)
		done += result;
	row("written = %zd", done);
	await_end(file, OUTPUT);
	row("state = %s", state_of(file));
	row("write = %s", answer(write(file, words_of_client, 4)));
	row("kept = %s", kept());
}

static void flags(char **words)
{
	static const unsigned sets[] = { CMDF_RAWDATA, CMDF_PRIORITY, CMDF_WAKE_EOS, CMDF_WRITE };
	(void)words;
	for (size_t i = 0; i < LENGTH(sets); i++)
		for (unsigned subdevice = 0; subdevice < 2; subdevice++) {
			comedi_cmd command = subdevice == INPUT ? input_command(list, 2, 100000, 2) :
								  output_command(list, 2, 100000, 2);
			command.flags = sets[i];
			row("command of %u, flags %#x = %s", subdevice, sets[i], answer(ioctl(file, COMEDI_CMD, &command)));
			row("flags of %u then = %#x", subdevice, command.flags);
			row("busy = %d", strstr(state_of(file), "BUSY") != NULL);
			row("cancel = %s", answer(ioctl(file, COMEDI_CANCEL, subdevice)));
		}
}

static void numbers_of_trigger(char **words)
{
	static const unsigned numbers[] = { 0, 1, 7, 0x7fffffff, 0x80000000, 0xffffffff };
	(void)words;
	for (size_t a = 0; a < LENGTH(numbers); a++) {
		comedi_cmd command = output_command(list, 2, 100000, 2);
		command.start_arg = numbers[a];
		row("armed by %u = %s", numbers[a], answer(give(file, command)));
		row("armed by %u: busy = %d", numbers[a], strstr(state_of(file), "BUSY") != NULL);
		write(file, words_of_client, 8);
		for (size_t t = LENGTH(numbers); t-- > 0;)
			row("armed by %u: trigger %u = %s", numbers[a], numbers[t], answer(trigger(file, OUTPUT, numbers[t])));
		await_end(file, OUTPUT);
		row("armed by %u: cancel = %s", numbers[a], answer(ioctl(file, COMEDI_CANCEL, OUTPUT)));
	}
}

/* The driver shows at its inputs what its outputs have. */
static void looped_back(char **words)
{
	static const unsigned values[] = { 0, 1, 12345, 65535 };
	(void)words;
	for (size_t v = 0; v < LENGTH(values); v++)
		for (unsigned channel = 3; channel < 6; channel++) {
			lsampl_t data[1] = { values[v] };
			row("write %u to channel %u = %s", values[v], channel,
				answer(instruction(file, INSN_WRITE, OUTPUT, channel, 1, data)));
			row("read input %u = %s", channel, answer(instruction(file, INSN_READ, INPUT, channel, 1, data)));
			row("input %u has %u = %d", channel, values[v], data[0] == values[v]);
		}
}

static void put_back(void)
{
	lsampl_t data[1] = { MIDDLE };
	for (unsigned channel = 0; channel < 8; channel++)
		instruction(file, INSN_WRITE, OUTPUT, channel, 1, data);
}

int main(int argc, char **argv)
{
	static const struct part parts[] = {
		{ "ends", ends },
		{ "reports", reports },
		{ "full", full },
		{ "mapped", mapped },
		{ "waiting", waiting },
		{ "flags", flags },
		{ "numbers_of_trigger", numbers_of_trigger },
		{ "looped_back", looped_back },
	};
	(void)argc;
	make_pages();
	for (size_t i = 0; i < LENGTH(words_of_client); i++)
		words_of_client[i] = i % 60000;
	file = open_device(O_RDWR | O_NONBLOCK);
	set_buffers(file);
	int status = run_part(parts, LENGTH(parts), argv, 120);
	ioctl(file, COMEDI_CANCEL, OUTPUT);
	put_back();
	return status;
}

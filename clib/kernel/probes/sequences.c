/* Random sequences of calls of three descriptors: two files, and a double of the first one. The calls of a second thread
 * take turns with those of the first one: a call begins when the one before it has returned. So nothing depends on which
 * thread the system runs.
 *     sequences SEED FIRST COUNT STEPS    COUNT sequences of STEPS calls, from number FIRST on */
#include "probe.h"
#include <pthread.h>
#include <semaphore.h>

static int files[3];
static char bytes_of_client[1 << 18];
static unsigned two[] = { 2, 3 };

/* What a call does: by which descriptor, and how many bytes it moves. */
struct call {
	unsigned by, bytes;
	const char *thread;
};

static void read_some(const struct call *c)
{
	row("%s f%u read %u = %s", c->thread, c->by, c->bytes, answer(read(files[c->by], bytes_of_client, c->bytes)));
}

static void write_some(const struct call *c)
{
	row("%s f%u write %u = %s", c->thread, c->by, c->bytes, answer(write(files[c->by], bytes_of_client, c->bytes)));
}

static void counts(const struct call *c, unsigned subdevice)
{
	unsigned moves = random_below(2) ? c->bytes : 0, reads = subdevice == INPUT ? moves : 0;
	comedi_bufinfo b;
	int result = buffer_call(files[c->by], subdevice, reads, moves - reads, &b);
	if (result)
		row("%s f%u counts of %u, %u = %s", c->thread, c->by, subdevice, moves, answer(result));
	else
		row("%s f%u counts of %u, %u = %u %u wc %u wp %u rc %u rp %u", c->thread, c->by, subdevice, moves, b.bytes_read,
			b.bytes_written, b.buf_write_count, b.buf_write_ptr, b.buf_read_count, b.buf_read_ptr);
}

static void counts_of_input(const struct call *c) { counts(c, INPUT); }

static void counts_of_output(const struct call *c) { counts(c, OUTPUT); }

static void command_input(const struct call *c)
{
	unsigned scans = 1 + random_below(30), length = 1 + random_below(2);
	int result = give(files[c->by], input_command(two, length, 100000, scans));
	await_end(files[0], INPUT);
	row("%s f%u command of %u scans of %u = %s", c->thread, c->by, scans, length, answer(result));
}

static void command_overrun(const struct call *c)
{
	unsigned list[16] = { 2, 2, 2, 2, 2, 2, 2, 2, 2, 2, 2, 2, 2, 2, 2, 2 };
	int result = give(files[c->by], input_command(list, LENGTH(list), 1000, 0));
	await_end(files[0], INPUT);
	row("%s f%u command that overruns = %s", c->thread, c->by, answer(result));
}

static void command_output(const struct call *c)
{
	unsigned scans = 1 + random_below(30);
	row("%s f%u output of %u scans = %s", c->thread, c->by, scans,
		answer(give(files[c->by], output_command(two, LENGTH(two), 100000, scans))));
}

static void trigger_output(const struct call *c)
{
	unsigned number = random_below(8) ? 0 : 1;
	int result = trigger(files[c->by], OUTPUT, number);
	if (result > 0)
		await_end(files[0], OUTPUT);
	row("%s f%u trigger by %u = %s", c->thread, c->by, number, answer(result));
}

static void request(const struct call *c, const char *name, unsigned long number)
{
	unsigned subdevice = random_below(3);
	row("%s f%u %s %u = %s", c->thread, c->by, name, subdevice, answer(ioctl(files[c->by], number, subdevice)));
}

static void cancel(const struct call *c) { request(c, "cancel", COMEDI_CANCEL); }

static void lock(const struct call *c) { request(c, "lock", COMEDI_LOCK); }

static void unlock(const struct call *c) { request(c, "unlock", COMEDI_UNLOCK); }

static void ask_for_samples(const struct call *c) { request(c, "ask for samples of", COMEDI_POLL); }

static void choose(const struct call *c)
{
	request(c, "read from", COMEDI_SETRSUBD);
	request(c, "write to", COMEDI_SETWSUBD);
}

static void look(const struct call *c) { row("%s f%u state = %s", c->thread, c->by, state_of(files[c->by])); }

static void poll_both(const struct call *c)
{
	row("%s f%u poll = %s", c->thread, c->by, poll_answer(files[c->by], POLLIN | POLLOUT, 0));
}

static void instruct(const struct call *c)
{
	static const unsigned kinds[] = { INSN_READ, INSN_WRITE, INSN_BITS, INSN_CONFIG };
	lsampl_t data[4] = { MIDDLE, MIDDLE, MIDDLE, MIDDLE };
	unsigned kind = random_below(LENGTH(kinds)), subdevice = random_below(2),
		 channel = CR_PACK(4 + random_below(5), random_below(3), 0), count = random_below(3);
	int result = instruction(files[c->by], kinds[kind], subdevice, channel, count, data);
	row("%s f%u instruction %u of %u %x, %u values = %s", c->thread, c->by, kind, subdevice, channel, count, answer(result));
}

static void test_command(const struct call *c)
{
	unsigned length = 1 + random_below(2), period = random_below(2) ? 100000 : 777, scans = random_below(3);
	comedi_cmd command = random_below(2) ? input_command(two, length, period, scans) :
					       output_command(two, length, period, scans);
	int result = ioctl(files[c->by], COMEDI_CMDTEST, &command);
	row("%s f%u test of %u, period %u, scans %u = %s %s", c->thread, c->by, length, period, scans, answer(result),
		command_text(&command, two));
}

static void set_waiting(const struct call *c)
{
	int flags = random_below(2) ? O_NONBLOCK : O_NONBLOCK | O_APPEND;
	row("%s f%u flags %#x = %s", c->thread, c->by, flags, answer(fcntl(files[c->by], F_SETFL, flags)));
}

/* A descriptor is closed, and a new file or a double of the first one gets its place. */
static void close_and_open(const struct call *c)
{
	int result = close(files[c->by]);
	int is_double = c->by != 1 && random_below(2);
	files[c->by] = is_double ? dup(files[c->by ? 0 : 2]) : open_device(O_RDWR | O_NONBLOCK);
	row("%s f%u close, %s = %s", c->thread, c->by, is_double ? "double" : "open", answer(result));
}

static const struct {
	void (*make)(const struct call *);
	unsigned weight;
} calls[] = {
	{ read_some, 8 },
	{ write_some, 8 },
	{ counts_of_input, 4 },
	{ counts_of_output, 4 },
	{ command_input, 4 },
	{ command_overrun, 2 },
	{ command_output, 6 },
	{ trigger_output, 4 },
	{ cancel, 2 },
	{ lock, 2 },
	{ unlock, 4 },
	{ ask_for_samples, 1 },
	{ choose, 2 },
	{ look, 2 },
	{ poll_both, 2 },
	{ instruct, 3 },
	{ test_command, 2 },
	{ set_waiting, 1 },
	{ close_and_open, 1 },
};

static void make_call(const char *thread)
{
	static const unsigned sizes[] = { 0, 1, 2, 3, 4, 6, 7, 8, 20, 40, 100, 4096, 131072, 200000 };
	struct call c = {
		.by = random_below(5) ? 0 : 1 + random_below(2), .bytes = sizes[random_below(LENGTH(sizes))], .thread = thread
	};
	unsigned all = 0;
	for (size_t i = 0; i < LENGTH(calls); i++)
		all += calls[i].weight;
	unsigned chosen = random_below(all);
	size_t i = 0;
	for (; chosen >= calls[i].weight; i++)
		chosen -= calls[i].weight;
	calls[i].make(&c);
}

/* The second thread makes a call each time that it is its turn, and ends when there is no more. */
static sem_t turn_of_second, turn_of_first;
static int is_over;

static void *second_thread(void *nothing)
{
	for (;;) {
		sem_wait(&turn_of_second);
		if (is_over)
			return nothing;
		make_call("2");
		sem_post(&turn_of_first);
	}
}

static void play(unsigned steps)
{
	files[0] = open_device(O_RDWR | O_NONBLOCK);
	files[1] = open_device(O_RDWR | O_NONBLOCK);
	files[2] = dup(files[0]);
	set_buffers(files[0]);
	for (unsigned i = 0; i < steps; i++) {
		if (random_below(3)) {
			make_call("1");
			continue;
		}
		sem_post(&turn_of_second);
		sem_wait(&turn_of_first);
	}
	row("end = %s", state_of(files[0]));
	for (size_t i = 0; i < LENGTH(files); i++)
		close(files[i]);
}

int main(int argc, char **argv)
{
	pthread_t second;
	if (argc < 5)
		return 2;
	unsigned seed = atoi(argv[1]), first = atoi(argv[2]), count = atoi(argv[3]), steps = atoi(argv[4]);
	alarm(500);
	sem_init(&turn_of_second, 0, 0);
	sem_init(&turn_of_first, 0, 0);
	for (size_t i = 0; i < sizeof bytes_of_client / 2; i++)
		((sampl_t *)bytes_of_client)[i] = MIDDLE;
	pthread_create(&second, NULL, second_thread, NULL);
	for (unsigned i = first; i < first + count; i++) {
		section("%u", i);
		seed_random(seed, i);
		play(steps);
	}
	is_over = 1;
	sem_post(&turn_of_second);
	return pthread_join(second, NULL);
}

/* Every state of the two subdevices, and in each one every call of operations.c by one of two files. After each call the
 * probe looks at the state.
 *     states NUMBER    the state of this number */
#include "operations.h"

static unsigned list[] = { 2, 3 };
static char room[BUFFER_BYTES];

static void must(int is_so, const char *what)
{
	if (!is_so)
		row("setting up: %s = failed", what);
}

/* An input that runs and has nothing: a sample that comes at its start is taken. */
static void run_slow_input(int file)
{
	must(!give(file, input_command(list, LENGTH(list), SLOW, 0)), "command");
	sleep_milliseconds(1);
	read(file, room, 4);
}

static void run_ended_input(int file)
{
	must(!give(file, input_command(list, LENGTH(list), 100000, 5)), "command");
	await_end(file, INPUT);
}

static void arm_output(int file, unsigned scans)
{
	must(!give(file, output_command(list, LENGTH(list), scans ? 100000 : SLOW, scans)), "command");
}

static void put_words(int file, size_t bytes)
{
	for (size_t i = 0; i < bytes / 2; i++)
		((sampl_t *)room)[i] = MIDDLE;
	must(write(file, room, bytes) == (ssize_t)bytes, "write");
}

static void take(int file, ssize_t bytes)
{
	ssize_t done = 0, result = 1;
	while (done < bytes && (result = read(file, room, bytes - done)) > 0)
		done += result;
	must(done == bytes, "read");
}

/* An output of so many scans that has the words of ten, is triggered, and ends. */
static void run_output(int file, unsigned scans)
{
	arm_output(file, scans);
	put_words(file, 40);
	must(trigger(file, OUTPUT, 0) == 1, "trigger");
	await_end(file, OUTPUT);
}

static void be_idle(void) {}
static void be_locked(void) { must(!ioctl(files[0], COMEDI_LOCK, INPUT), "lock"); }
static void be_locked_by_other(void) { must(!ioctl(files[1], COMEDI_LOCK, INPUT), "lock"); }
static void be_output_locked_by_other(void) { must(!ioctl(files[1], COMEDI_LOCK, OUTPUT), "lock"); }
static void be_running(void) { run_slow_input(files[0]); }
static void be_running_of_other(void) { run_slow_input(files[1]); }
static void be_ended(void) { run_ended_input(files[0]); }
static void be_ended_of_other(void) { run_ended_input(files[1]); }
static void be_overrun(void) { overrun(files[0]); }
static void be_armed(void) { arm_output(files[0], 0); }
static void be_armed_of_other(void) { arm_output(files[1], 0); }
static void be_underrun(void) { run_output(files[0], 100); }
static void be_done(void) { run_output(files[0], 10); }

static void be_read_out(void)
{
	run_ended_input(files[0]);
	take(files[0], 20);
}

static void be_reported(void)
{
	be_read_out();
	must(read(files[0], room, 2) == 0, "end");
}

static void be_half_read(void)
{
	run_ended_input(files[0]);
	take(files[0], 7);
}

static void be_overrun_read_out(void)
{
	overrun(files[0]);
	take(files[0], BUFFER_BYTES);
}

static void be_overrun_reported(void)
{
	be_overrun_read_out();
	must(read(files[0], room, 2) < 0, "end");
}

static void be_cancelled(void)
{
	run_ended_input(files[0]);
	must(!ioctl(files[0], COMEDI_CANCEL, INPUT), "cancel");
}

static void be_locked_and_running(void)
{
	be_locked();
	be_running();
}

/* Scans of 200 ms: after a second some are there, and all except one are read, whenever the first one came. */
static void be_running_with_a_scan(void)
{
	comedi_bufinfo counts;
	must(!give(files[0], input_command(list, LENGTH(list), 200000000, 0)), "command");
	sleep_milliseconds(900);
	while (!buffer_call(files[0], INPUT, 0, 0, &counts) && counts.buf_write_count - counts.buf_read_count > 4)
		take(files[0], 4);
}

static void be_armed_with_words(void)
{
	be_armed();
	put_words(files[0], 40);
}

static void be_putting_out(void)
{
	be_armed_with_words();
	must(trigger(files[0], OUTPUT, 0) == 1, "trigger");
	sleep_milliseconds(2);
}

static void be_underrun_reported(void)
{
	be_underrun();
	must(write(files[0], room, 2) < 0, "end");
}

static void be_done_reported(void)
{
	be_done();
	must(write(files[0], room, 2) == 0, "end");
}

static void be_full(void)
{
	be_armed();
	put_words(files[0], BUFFER_BYTES);
}

static void be_both(void)
{
	be_running();
	be_armed();
}

/* A state: its name, what leads to it, and of which subdevice what was moved at the start isn't counted. */
enum { COUNTS_ALL = 2 };

static const struct {
	const char *name;
	void (*lead)(void);
	int started;
} states[] = {
	{ "idle", be_idle, COUNTS_ALL },
	{ "ai locked", be_locked, COUNTS_ALL },
	{ "ai locked by B", be_locked_by_other, COUNTS_ALL },
	{ "ao locked by B", be_output_locked_by_other, COUNTS_ALL },
	{ "ai runs, nothing is there", be_running, INPUT },
	{ "ai of B runs", be_running_of_other, INPUT },
	{ "ai runs, a scan is there", be_running_with_a_scan, INPUT },
	{ "ai locked and runs", be_locked_and_running, INPUT },
	{ "ai ended, 20 bytes are left", be_ended, COUNTS_ALL },
	{ "ai ended, 13 bytes are left", be_half_read, COUNTS_ALL },
	{ "ai of B ended, 20 bytes are left", be_ended_of_other, COUNTS_ALL },
	{ "ai ended and read out", be_read_out, COUNTS_ALL },
	{ "ai ended, read out and reported", be_reported, COUNTS_ALL },
	{ "ai overrun, all is left", be_overrun, COUNTS_ALL },
	{ "ai overrun and read out", be_overrun_read_out, COUNTS_ALL },
	{ "ai overrun, read out and reported", be_overrun_reported, COUNTS_ALL },
	{ "ai cancelled", be_cancelled, COUNTS_ALL },
	{ "ao armed, nothing is written", be_armed, COUNTS_ALL },
	{ "ao of B armed", be_armed_of_other, COUNTS_ALL },
	{ "ao armed, 40 bytes are written", be_armed_with_words, COUNTS_ALL },
	{ "ao armed, full", be_full, COUNTS_ALL },
	{ "ao runs", be_putting_out, OUTPUT },
	{ "ao underrun", be_underrun, COUNTS_ALL },
	{ "ao underrun and reported", be_underrun_reported, COUNTS_ALL },
	{ "ao done", be_done, COUNTS_ALL },
	{ "ao done and reported", be_done_reported, COUNTS_ALL },
	{ "ai runs and ao armed", be_both, INPUT },
};

/* Counts from what a slow command moved at its start on. */
static void count_from_here(int subdevice)
{
	comedi_bufinfo counts;
	memset(written_before, 0, sizeof written_before);
	memset(read_before, 0, sizeof read_before);
	if (subdevice == COUNTS_ALL ||
		(buffer_call(files[0], subdevice, 0, 0, &counts) && buffer_call(files[1], subdevice, 0, 0, &counts)))
		return;
	read_before[subdevice] = counts.buf_read_count;
	written_before[subdevice] = subdevice == OUTPUT ? 40 : counts.buf_read_count;
}

static void look(const char *name)
{
	char said[200], counts[200];
	row("%s; A = %s", name, state_of(files[0]));
	row("%s; B = %s", name, state_of(files[1]));
	row("%s; poll = %s", name, poll_answer(files[0], POLLIN | POLLOUT | POLLPRI, 0));
	say_counts(files[0], INPUT, 0, 0, counts, sizeof counts);
	row("%s; counts of ai = %s", name, counts);
	say_counts(files[0], OUTPUT, 0, 0, counts, sizeof counts);
	row("%s; counts of ao = %s", name, counts);
	read_bytes(files[0], 2, said, sizeof said);
	row("%s; read 2 = %s", name, said);
	row("%s; write 2 = %s", name, answer(write(files[0], room, 2)));
	row("%s; end = %s", name, state_of(files[0]));
}

int main(int argc, char **argv)
{
	unsigned state = argc > 1 ? (unsigned)atoi(argv[1]) : LENGTH(states);
	if (state >= LENGTH(states))
		return 2;
	alarm(300);
	make_pages();
	section("%s", states[state].name);
	for (unsigned operation = 0; operation < operations_count(); operation++) {
		char name[200], said[200];
		files[0] = open_device(O_RDWR | O_NONBLOCK);
		files[1] = open_device(O_RDWR | O_NONBLOCK);
		set_buffers(files[0]);
		states[state].lead();
		count_from_here(states[state].started);
		operate(operation, name, said, sizeof name);
		row("%s = %s", name, said);
		look(name);
		close(files[0]);
		close(files[1]);
	}
	return 0;
}

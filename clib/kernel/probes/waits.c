/* A thread waits in a call, and another one does something then. Prints how the wait was answered, and who is busy after it.
 *     waits PART */
#include "probe.h"
#include <pthread.h>
#include <signal.h>
#include <stdatomic.h>
#include <sys/epoll.h>
#include <sys/select.h>
#include <sys/uio.h>
#include <sys/wait.h>
#include <time.h>

static unsigned two[] = { 2, 3 };
static char bytes[BUFFER_BYTES];
static int file, other;
static char said[120];

/* The waits. */
static void wait_read_one(void) { snprintf(said, sizeof said, "%s", answer(read(file, bytes, 2))); }
static void wait_read_odd(void) { snprintf(said, sizeof said, "%s", answer(read(file, bytes, 1))); }
static void wait_poll_input(void) { snprintf(said, sizeof said, "%s", poll_answer(file, POLLIN, 3000)); }
static void wait_poll_output(void) { snprintf(said, sizeof said, "%s", poll_answer(file, POLLOUT, 3000)); }
static void wait_write_one(void) { snprintf(said, sizeof said, "%s", answer(write(file, bytes, 2))); }

static void wait_read_pieces(void)
{
	struct iovec pieces[] = { { bytes, 1 }, { bytes + 8, 1 } };
	snprintf(said, sizeof said, "%s", answer(readv(file, pieces, 2)));
}

static void wait_select(void)
{
	fd_set reads;
	struct timeval time = { 3, 0 };
	FD_ZERO(&reads);
	FD_SET(file, &reads);
	snprintf(said, sizeof said, "%s", answer(select(file + 1, &reads, NULL, NULL, &time)));
}

static void wait_epoll(void)
{
	int set = epoll_create1(0);
	struct epoll_event event = { .events = EPOLLIN };
	epoll_ctl(set, EPOLL_CTL_ADD, file, &event);
	int result = epoll_wait(set, &event, 1, 3000);
	snprintf(said, sizeof said, "%s %x", answer(result), result > 0 ? event.events : 0);
	close(set);
}

/* What the other thread does. */
static void do_nothing(void) {}
static void do_cancel_input(void) { row("  cancel = %s", answer(ioctl(file, COMEDI_CANCEL, INPUT))); }
static void do_cancel_output(void) { row("  cancel = %s", answer(ioctl(file, COMEDI_CANCEL, OUTPUT))); }
static void do_cancel_by_other(void) { row("  cancel by another file = %s", answer(ioctl(other, COMEDI_CANCEL, INPUT))); }
static void do_lock(void) { row("  lock by another file = %s", answer(ioctl(other, COMEDI_LOCK, INPUT))); }
static void do_trigger(void) { row("  trigger = %s", answer(trigger(file, OUTPUT, 0))); }
static void do_trigger_by_other(void) { row("  trigger by another file = %s", answer(trigger(other, OUTPUT, 0))); }
static void do_read_elsewhere(void) { row("  read from output = %s", answer(ioctl(file, COMEDI_SETRSUBD, OUTPUT))); }
static void do_command_of_other(void)
{
	row("  command of another file = %s", answer(give(other, input_command(two, 1, 100000, 5))));
}
static void do_look(void) { row("  state = %s", state_of(other)); }
static void do_set_non_blocking(void) { row("  O_NONBLOCK = %s", answer(fcntl(file, F_SETFL, O_NONBLOCK))); }

static void do_command(void) { row("  command = %s", answer(give(file, input_command(two, 1, 10000000, 5)))); }

static void do_instruction(void)
{
	lsampl_t data[1] = { 0 };
	row("  instruction = %s", answer(instruction(other, INSN_READ, INPUT, 2, 1, data)));
}

static void do_counts(void)
{
	comedi_bufinfo b;
	row("  counts by another file = %s", answer(buffer_call(other, INPUT, 2, 0, &b)));
}

/* What there is when the wait begins. Without a command there is nothing to wait for. */
static void set_up_idle(void) {}

static void set_up_slow_input(void)
{
	give(file, input_command(two, 1, SLOW, 0));
	sleep_milliseconds(1);
	fcntl(file, F_SETFL, O_NONBLOCK);
	read(file, bytes, 2);
	fcntl(file, F_SETFL, 0);
}

static void set_up_full_output(unsigned period)
{
	give(file, output_command(two, 2, period, 0));
	row("  filled = %s", answer(write(file, bytes, BUFFER_BYTES)));
}

static void set_up_slow_output(void) { set_up_full_output(SLOW); }
static void set_up_fast_output(void) { set_up_full_output(10000000); }

static atomic_int is_over;

static void *wait_in_thread(void *wait)
{
	((void (*)(void))wait)();
	is_over = 1;
	return NULL;
}

/* Lets a thread wait, does something after 100 ms, and prints what came of it. A wait that goes on is cancelled. */
static void run_both(const char *name, void (*set_up)(void), void (*wait)(void), void (*act)(void))
{
	pthread_t waiting;
	file = open_device(O_RDWR);
	other = open_device(O_RDWR);
	set_buffers(file);
	is_over = 0;
	set_up();
	pthread_create(&waiting, NULL, wait_in_thread, (void *)wait);
	sleep_milliseconds(100);
	act();
	sleep_milliseconds(200);
	row("%s = %s", name, is_over ? said : "still waits");
	row("%s: state = %s", name, state_of(other));
	ioctl(file, COMEDI_CANCEL, INPUT);
	ioctl(file, COMEDI_CANCEL, OUTPUT);
	pthread_join(waiting, NULL);
	row("%s: in the end = %s", name, said);
	close(file);
	close(other);
}

struct step {
	const char *name;
	void (*run)(void);
};

static void run_all(void (*set_up)(void), const struct step *waits, size_t count, const struct step *acts, size_t acts_count)
{
	for (size_t w = 0; w < count; w++)
		for (size_t a = 0; a < acts_count; a++) {
			char name[100];
			snprintf(name, sizeof name, "%s, then %s", waits[w].name, acts[a].name);
			run_both(name, set_up, waits[w].run, acts[a].run);
		}
}

static const struct step input_waits[] = {
	{ "read 2", wait_read_one },
	{ "read 1", wait_read_odd },
	{ "read in pieces", wait_read_pieces },
	{ "poll", wait_poll_input },
	{ "select", wait_select },
	{ "epoll", wait_epoll },
};
static const struct step output_waits[] = { { "write 2", wait_write_one }, { "poll", wait_poll_output } };

static void inputs(char **words)
{
	static const struct step acts[] = {
		{ "nothing", do_nothing },
		{ "cancel", do_cancel_input },
		{ "cancel by another file", do_cancel_by_other },
		{ "lock by another file", do_lock },

		{ "a command of another file", do_command_of_other },
		{ "a look", do_look },
		{ "an instruction", do_instruction },
		{ "counts by another file", do_counts },
		{ "read from output", do_read_elsewhere },
		{ "O_NONBLOCK", do_set_non_blocking },
		{ "cancel of the output", do_cancel_output },
	};
	(void)words;
	run_all(set_up_slow_input, input_waits, LENGTH(input_waits), acts, LENGTH(acts));
}

static void outputs(char **words)
{
	static const struct step acts[] = {
		{ "nothing", do_nothing },
		{ "cancel", do_cancel_output },
		{ "trigger", do_trigger },
		{ "trigger by another file", do_trigger_by_other },
		{ "O_NONBLOCK", do_set_non_blocking },
	};
	(void)words;
	section("slow");
	run_all(set_up_slow_output, output_waits, LENGTH(output_waits), acts, 2);
	section("fast");
	run_all(set_up_fast_output, output_waits, LENGTH(output_waits), acts, LENGTH(acts));
}

static void idle(char **words)
{
	static const struct step acts[] = { { "nothing", do_nothing }, { "a command", do_command } };
	(void)words;
	run_all(set_up_idle, input_waits, LENGTH(input_waits), acts, LENGTH(acts));
}

/* How long a wait goes on after it was cancelled. */
static void soon(char **words)
{
	(void)words;
	for (size_t w = 0; w < LENGTH(input_waits); w++) {
		pthread_t waiting;
		struct timespec before, after;
		file = open_device(O_RDWR);
		set_buffers(file);
		set_up_slow_input();
		pthread_create(&waiting, NULL, wait_in_thread, (void *)input_waits[w].run);
		sleep_milliseconds(100);
		ioctl(file, COMEDI_CANCEL, INPUT);
		clock_gettime(CLOCK_MONOTONIC, &before);
		pthread_join(waiting, NULL);
		clock_gettime(CLOCK_MONOTONIC, &after);
		row("%s ends within a second of the cancel = %d", input_waits[w].name,
			(after.tv_sec - before.tv_sec) * 1000 + (after.tv_nsec - before.tv_nsec) / 1000000 < 1000);
		close(file);
	}
}

static pthread_t main_thread;

/* Sends a signal, and ends the wait if it goes on after that. */
static void *send_signal(void *nothing)
{
	sleep_milliseconds(100);
	pthread_kill(main_thread, SIGUSR1);
	sleep_milliseconds(100);
	ioctl(file, COMEDI_CANCEL, INPUT);
	return nothing;
}

static void take_signal(int number) { (void)number; }

/* A signal comes to a thread that waits, whose handler restarts calls or doesn't. */
static void signals(char **words)
{
	static const int flags[] = { 0, SA_RESTART };
	(void)words;
	main_thread = pthread_self();
	for (size_t f = 0; f < LENGTH(flags); f++)
		for (size_t w = 0; w < LENGTH(input_waits); w++) {
			pthread_t sending;
			struct sigaction action = { .sa_handler = take_signal, .sa_flags = flags[f] };
			sigaction(SIGUSR1, &action, NULL);
			file = open_device(O_RDWR);
			set_buffers(file);
			set_up_slow_input();
			pthread_create(&sending, NULL, send_signal, NULL);
			input_waits[w].run();
			row("%s and a signal%s = %s", input_waits[w].name, flags[f] ? " that restarts" : "", said);
			pthread_join(sending, NULL);
			close(file);
		}
}

static int counts_of_readers[2];

static void *count_bytes(void *count)
{
	char some[10];
	for (ssize_t result; (result = read(file, some, sizeof some)) > 0;)
		*(int *)count += result;
	return NULL;
}

static void readers(char **words)
{
	pthread_t threads[2];
	(void)words;
	file = open_device(O_RDWR);
	set_buffers(file);
	give(file, input_command(two, 2, 1000000, 500));
	for (int i = 0; i < 2; i++)
		pthread_create(threads + i, NULL, count_bytes, counts_of_readers + i);
	for (int i = 0; i < 2; i++)
		pthread_join(threads[i], NULL);
	row("bytes of two readers = %d", counts_of_readers[0] + counts_of_readers[1]);
	row("state = %s", state_of(file));
	close(file);
}

/* A child waits, and its parent cancels. On a modelled board time goes on for the child at once, so its wait may be over before
 * that: how it was answered isn't printed, but that it ends. */
static void children(char **words)
{
	(void)words;
	for (size_t w = 0; w < LENGTH(input_waits); w++) {
		int status;
		file = open_device(O_RDWR);
		set_buffers(file);
		set_up_slow_input();
		pid_t child = fork();
		if (!child) {
			input_waits[w].run();
			_exit(0);
		}
		sleep_milliseconds(100);
		int result = ioctl(file, COMEDI_CANCEL, INPUT);
		waitpid(child, &status, 0);
		row("%s of a child: cancel = %s", input_waits[w].name, answer(result));
		row("%s of a child: status = %d", input_waits[w].name, status);
		row("%s of a child: state = %s", input_waits[w].name, state_of(file));
		close(file);
	}
}

int main(int argc, char **argv)
{
	static const struct part parts[] = { { "inputs", inputs }, { "outputs", outputs }, { "idle", idle }, { "soon", soon },
		{ "signals", signals }, { "readers", readers }, { "children", children } };
	(void)argc;
	return run_part(parts, LENGTH(parts), argv, 120);
}

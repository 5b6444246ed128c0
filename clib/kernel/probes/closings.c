/* Files whose descriptors are doubled, handed to children, and closed in every order.
 *     closings PART */
#include "probe.h"
#include <signal.h>
#include <sys/wait.h>

static unsigned list[] = { 2, 3 };
static char bytes[BUFFER_BYTES];

/* What is done with the file before its descriptors are closed. */
static void be_idle(int file) { (void)file; }

static void be_locked(int file) { ioctl(file, COMEDI_LOCK, INPUT); }

static void be_ended(int file)
{
	give(file, input_command(list, LENGTH(list), 100000, 5));
	await_end(file, INPUT);
}

static void be_armed(int file)
{
	give(file, output_command(list, LENGTH(list), 100000, 5));
	write(file, bytes, 8);
}

static void be_overrun(int file) { overrun(file); }

static void be_locked_and_ended(int file)
{
	be_locked(file);
	be_ended(file);
}

static const struct {
	const char *name;
	void (*lead)(int file);
} leads[] = { { "idle", be_idle }, { "locked", be_locked }, { "ended", be_ended }, { "armed", be_armed },
	{ "overrun", be_overrun }, { "locked and ended", be_locked_and_ended } };

/* The ways to a second descriptor of a file. */
static int by_dup(int file) { return dup(file); }
static int by_dup2(int file) { return dup2(file, 77); }
static int by_dup3(int file) { return dup3(file, 78, O_CLOEXEC); }
static int by_fcntl(int file) { return fcntl(file, F_DUPFD, 100); }
static int by_fcntl_cloexec(int file) { return fcntl(file, F_DUPFD_CLOEXEC, 101); }

static const struct {
	const char *name;
	int (*make)(int file);
} doubles[] = { { "dup", by_dup }, { "dup2", by_dup2 }, { "dup3", by_dup3 }, { "F_DUPFD", by_fcntl },
	{ "F_DUPFD_CLOEXEC", by_fcntl_cloexec } };

/* A child that has all descriptors, and keeps them until a byte comes. */
struct child {
	pid_t process;
	int orders, done;
};

static struct child make_child(void)
{
	int orders[2], done[2];
	char order;
	if (pipe(orders) || pipe(done))
		exit(4);
	pid_t process = fork();
	if (!process) {
		close(orders[1]);
		close(done[0]);
		read(orders[0], &order, 1);
		_exit(0);
	}
	close(orders[0]);
	close(done[1]);
	return (struct child){ process, orders[1], done[0] };
}

static void end_child(struct child *child)
{
	close(child->orders);
	waitpid(child->process, NULL, 0);
	close(child->done);
	child->process = 0;
}

/* What another file sees, and whether a command of it is taken. */
static void look(int other, const char *what)
{
	comedi_cmd command = input_command(list, LENGTH(list), 100000, 1);
	row("%s: state = %s", what, state_of(other));
	row("%s: lock = %s", what, answer(ioctl(other, COMEDI_LOCK, INPUT)));
	row("%s: command = %s", what, answer(give(other, command)));
	await_end(other, INPUT);
	row("%s: cancel = %s", what, answer(ioctl(other, COMEDI_CANCEL, INPUT)));
	row("%s: unlock = %s", what, answer(ioctl(other, COMEDI_UNLOCK, INPUT)));
}

/* The file, a double of it, a child with both, and a second file are closed in one of the 24 orders. */
enum { FIRST, DOUBLE, CHILD, SECOND, HOLDERS };

static void close_in_order(const int *order, size_t lead, size_t kind)
{
	static const char *const names[] = { "the first", "its double", "the child", "the second file" };
	char what[120];
	int descriptors[HOLDERS], other = open_device(O_RDWR | O_NONBLOCK);
	set_buffers(other);
	descriptors[FIRST] = open_device(O_RDWR | O_NONBLOCK);
	descriptors[DOUBLE] = doubles[kind].make(descriptors[FIRST]);
	descriptors[SECOND] = open_device(O_RDWR | O_NONBLOCK);
	leads[lead].lead(descriptors[FIRST]);
	struct child child = make_child();
	section("%s, %s: %d %d %d %d", leads[lead].name, doubles[kind].name, order[0], order[1], order[2], order[3]);
	for (int i = 0; i < HOLDERS; i++) {
		if (order[i] == CHILD)
			end_child(&child);
		else
			close(descriptors[order[i]]);
		snprintf(what, sizeof what, "%d, %s is closed", i + 1, names[order[i]]);
		look(other, what);
		if (i + 1 < HOLDERS && order[i] != DOUBLE && order[i] != FIRST)
			row("%s: read = %s", what, answer(read(descriptors[DOUBLE], bytes, 2)));
	}
	close(other);
}

static int is_order(const int *order)
{
	unsigned seen = 0;
	for (int i = 0; i < HOLDERS; i++)
		seen |= 1u << order[i];
	return seen == (1u << HOLDERS) - 1;
}

static void orders(char **words)
{
	size_t kind = 0;
	(void)words;
	for (size_t lead = 0; lead < LENGTH(leads); lead++)
		for (unsigned number = 0; number < 256; number++) {
			int order[HOLDERS] = { number / 64, number / 16 % 4, number / 4 % 4, number % 4 };
			if (is_order(order))
				close_in_order(order, lead, kind++ % LENGTH(doubles));
		}
}

/* What two descriptors of a file share. */
static void shared(char **words)
{
	(void)words;
	for (size_t kind = 0; kind < LENGTH(doubles); kind++) {
		const char *name = doubles[kind].name;
		int file = open_device(O_RDWR | O_NONBLOCK), copy = doubles[kind].make(file);
		set_buffers(file);
		row("%s: closed by exec = %d", name, fcntl(copy, F_GETFD));
		fcntl(copy, F_SETFL, 0);
		row("%s: the first one waits = %d", name, !(fcntl(file, F_GETFL) & O_NONBLOCK));
		fcntl(file, F_SETFL, O_NONBLOCK);
		row("%s: lock by the copy = %s", name, answer(ioctl(copy, COMEDI_LOCK, INPUT)));
		row("%s: state = %s", name, state_of(file));
		be_ended(copy);
		row("%s: read by the first = %s", name, answer(read(file, bytes, 3)));
		row("%s: read by the copy = %s", name, answer(read(copy, bytes, 4)));
		row("%s: close of the first = %s", name, answer(close(file)));
		row("%s: state = %s", name, state_of(copy));
		row("%s: read by the copy = %s", name, answer(read(copy, bytes, 100)));
		row("%s: unlock by the copy = %s", name, answer(ioctl(copy, COMEDI_UNLOCK, INPUT)));
		row("%s: close of the copy = %s", name, answer(close(copy)));
	}
}

/* Another file gets the number of the device's. */
static void replaced(char **words)
{
	(void)words;
	for (size_t lead = 0; lead < LENGTH(leads); lead++) {
		const char *name = leads[lead].name;
		int other = open_device(O_RDWR | O_NONBLOCK), null = open("/dev/null", O_RDWR);
		set_buffers(other);
		int file = open_device(O_RDWR | O_NONBLOCK);
		leads[lead].lead(file);
		row("%s: state = %s", name, state_of(other));
		row("%s: /dev/null takes the number = %d", name, dup2(null, file) == file);
		row("%s: read = %s", name, answer(read(file, bytes, 4)));
		row("%s: DEVINFO = %s", name, answer(ioctl(file, COMEDI_DEVINFO, bytes)));
		look(other, name);
		row("%s: the device takes it again = %d", name, dup2(other, file) == file);
		row("%s: read = %s", name, answer(read(file, bytes, 4)));
		close(file);
		close(null);
		close(other);
	}
}

/* Children that call, and end in several ways. */
static void run_child(int file, const char *what, void (*act)(int file))
{
	pid_t process = fork();
	int status;
	if (!process) {
		act(file);
		_exit(0);
	}
	waitpid(process, &status, 0);
	row("%s: status = %d", what, status);
	row("%s: state = %s", what, state_of(file));
}

static void child_reads(int file) { row("child reads = %s", answer(read(file, bytes, 6))); }
static void child_locks(int file) { row("child locks = %s", answer(ioctl(file, COMEDI_LOCK, INPUT))); }
static void child_unlocks(int file) { row("child unlocks = %s", answer(ioctl(file, COMEDI_UNLOCK, INPUT))); }
static void child_cancels(int file) { row("child cancels = %s", answer(ioctl(file, COMEDI_CANCEL, INPUT))); }
static void child_commands(int file)
{
	row("child's command = %s", answer(give(file, input_command(list, LENGTH(list), SLOW, 0))));
}
static void child_closes(int file) { row("child closes = %s", answer(close(file))); }

static void child_opens(int file)
{
	int own = open_device(O_RDWR | O_NONBLOCK);
	row("child's own file locks = %s", answer(ioctl(own, COMEDI_LOCK, INPUT)));
	row("child's own file gives a command = %s", answer(give(own, input_command(list, LENGTH(list), SLOW, 0))));
	row("child's own file sees = %s", state_of(own));
	row("the parent's file is asked by the child = %s", state_of(file));
}

static void child_is_killed(int file)
{
	child_commands(file);
	kill(getpid(), SIGKILL);
}

static void children(char **words)
{
	int file = open_device(O_RDWR | O_NONBLOCK);
	(void)words;
	set_buffers(file);
	be_ended(file);
	run_child(file, "a child that reads", child_reads);
	row("parent reads = %s", answer(read(file, bytes, 100)));
	run_child(file, "a child that locks", child_locks);
	run_child(file, "a child with a file of its own", child_opens);
	run_child(file, "a child that unlocks", child_unlocks);
	run_child(file, "a child that closes", child_closes);
	ioctl(file, COMEDI_CANCEL, INPUT);
	run_child(file, "a child with a file of its own", child_opens);
	run_child(file, "a child that gives a command", child_commands);
	run_child(file, "a child that cancels", child_cancels);
	run_child(file, "a child that is killed", child_is_killed);
	row("cancel = %s", answer(ioctl(file, COMEDI_CANCEL, INPUT)));
	close(file);
}

int main(int argc, char **argv)
{
	static const struct part parts[] = { { "orders", orders }, { "shared", shared }, { "replaced", replaced },
		{ "children", children } };
	(void)argc;
	return run_part(parts, LENGTH(parts), argv, 300);
}

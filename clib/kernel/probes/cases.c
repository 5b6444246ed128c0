/* Cases of their own: streams of C over the descriptor, locks and triggers, ends, signals of samples, files that are closed
 * while a thread reads, and programs that are started.
 *     cases PART */
#include "probe.h"
#include <pthread.h>
#include <signal.h>
#include <sys/sendfile.h>
#include <sys/socket.h>
#include <sys/wait.h>

static unsigned list[] = { 2, 3 };
static char bytes[BUFFER_BYTES];

static int opened(int flags)
{
	int file = open_device(O_RDWR | flags);
	set_buffers(file);
	return file;
}

/* A file of which a command has ended and left 20 bytes. */
static int ended(void)
{
	int file = opened(O_NONBLOCK);
	give(file, input_command(list, 2, 100000, 5));
	await_end(file, INPUT);
	return file;
}

static void other_reads(char **words)
{
	int file = ended(), pipes[2];
	FILE *stream = fdopen(dup(file), "rb");
	(void)words;
	row("fread of fdopen = %zu", stream ? fread(bytes, 2, 10, stream) : 0);
	fclose(stream);
	close(file);
	file = ended();
	row("pread = %s", answer(pread(file, bytes, 4, 0)));
	close(file);
	file = ended();
	if (pipe(pipes))
		return;
	row("splice = %s", answer(splice(file, NULL, pipes[1], NULL, 4, 0)));
	close(file);
	file = ended();
	row("sendfile = %s", answer(sendfile(pipes[1], file, NULL, 4)));
	row("FIONREAD = %s", answer(ioctl(file, FIONREAD, bytes)));
	row("recv = %s", answer(recv(file, bytes, 4, 0)));
	row("send = %s", answer(send(file, bytes, 4, 0)));
	close(file);
}

static void locks(char **words)
{
	int a = opened(O_NONBLOCK), b = open_device(O_RDWR | O_NONBLOCK);
	comedi_bufinfo counts;
	(void)words;
	ioctl(b, COMEDI_LOCK, OUTPUT);
	row("locked by B, idle: A triggers = %s", answer(trigger(a, OUTPUT, 0)));
	give(b, output_command(list, 2, SLOW, 0));
	write(b, bytes, 40);
	row("locked by B and armed: A triggers by 5 = %s", answer(trigger(a, OUTPUT, 5)));
	row("locked by B and armed: A triggers = %s", answer(trigger(a, OUTPUT, 0)));
	row("locked by B and runs: A triggers = %s", answer(trigger(a, OUTPUT, 0)));
	row("locked by B: A writes to it = %s", answer(ioctl(a, COMEDI_SETWSUBD, OUTPUT)));
	row("locked by B: A asks for counts = %s", answer(buffer_call(a, OUTPUT, 0, 0, &counts)));
	row("locked by B: A writes = %s", answer(write(a, bytes, 4)));
	row("locked by B: A cancels = %s", answer(ioctl(a, COMEDI_CANCEL, OUTPUT)));
	row("locked by B: A asks for samples = %s", answer(ioctl(a, COMEDI_POLL, OUTPUT)));
	row("locked by B: A tests = %s", answer(ioctl(a, COMEDI_CMDTEST, &(comedi_cmd){ .subdev = OUTPUT })));
	close(b);
	row("B is closed: state = %s", state_of(a));
	close(a);
}

/* How each call learns of the end of a command. */
static void ends(char **words)
{
	comedi_bufinfo counts;
	lsampl_t data[1] = { 0 };
	(void)words;
	int file = ended();
	row("command before the end is reported = %s", answer(give(file, input_command(list, 2, 100000, 5))));
	row("instruction before the end is reported = %s", answer(instruction(file, INSN_READ, INPUT, 2, 1, data)));
	row("unlock before the end is reported = %s", answer(ioctl(file, COMEDI_UNLOCK, INPUT)));
	row("counts that take all = %s", answer(buffer_call(file, INPUT, 20, 0, &counts)));
	row("state = %s", state_of(file));
	close(file);
	file = ended();
	row("read of all = %s", answer(read(file, bytes, 20)));
	row("state = %s", state_of(file));
	row("poll = %s", poll_answer(file, POLLIN, 0));
	row("read 0 = %s", answer(read(file, bytes, 0)));
	row("state = %s", state_of(file));
	row("counts = %s", answer(buffer_call(file, INPUT, 0, 0, &counts)));
	row("state = %s", state_of(file));
	close(file);
}

static volatile sig_atomic_t signals_came;

static void take_signal(int number)
{
	(void)number;
	signals_came++;
}

static void take_signals(int number)
{
	struct sigaction action = { .sa_handler = take_signal };
	sigaction(number, &action, NULL);
	signals_came = 0;
}

/* Whether SIGIO, or another signal, comes with samples while the program sleeps. */
static void signal_with_samples(const char *what, int number, int has_owner)
{
	int file = opened(O_NONBLOCK);
	take_signals(number ? number : SIGIO);
	if (has_owner)
		row("%s: F_SETOWN = %s", what, answer(fcntl(file, F_SETOWN, getpid())));
	if (number)
		row("%s: F_SETSIG = %s", what, answer(fcntl(file, F_SETSIG, number)));
	row("%s: O_ASYNC = %s", what, answer(fcntl(file, F_SETFL, O_ASYNC | O_NONBLOCK)));
	give(file, input_command(list, 2, 20000000, 5));
	for (int i = 0; i < 30 && !signals_came; i++)
		sleep_milliseconds(10);
	row("%s: came = %d", what, signals_came > 0);
	await_end(file, INPUT);
	row("%s: read = %s", what, answer(read(file, bytes, 100)));
	row("%s: read = %s", what, answer(read(file, bytes, 100)));
	close(file);
}

static void signals(char **words)
{
	(void)words;
	signal_with_samples("SIGIO", 0, 1);
	signal_with_samples("SIGIO without an owner", 0, 0);
	signal_with_samples("SIGUSR1", SIGUSR1, 1);
	int file = opened(0), interrupted = 0, total = 0;
	take_signals(SIGIO);
	fcntl(file, F_SETOWN, getpid());
	fcntl(file, F_SETFL, O_ASYNC);
	give(file, input_command(list, 1, 100000000, 3));
	for (ssize_t result = 1; result != 0 && interrupted < 50;) {
		result = read(file, bytes, 100);
		interrupted += result < 0 && errno == EINTR;
		total += result > 0 ? result : 0;
	}
	row("bytes read while SIGIO comes = %d", total);
	row("EINTR came = %d", interrupted > 0);
	close(file);
}

static int closing_file;
static char said[40];

static void *read_late(void *nothing)
{
	snprintf(said, sizeof said, "%s", answer(read(closing_file, bytes, 100)));
	return nothing;
}

/* A file is closed while a thread reads from it. */
static void close_while_reading(char **words)
{
	pthread_t reader;
	int other = open_device(O_RDWR | O_NONBLOCK);
	(void)words;
	closing_file = opened(0);
	give(closing_file, input_command(list, 1, 500000000, 2));
	sleep_milliseconds(1);
	fcntl(closing_file, F_SETFL, O_NONBLOCK);
	read(closing_file, bytes, 2);
	fcntl(closing_file, F_SETFL, 0);
	pthread_create(&reader, NULL, read_late, NULL);
	sleep_milliseconds(100);
	row("close = %s", answer(close(closing_file)));
	row("state = %s", state_of(other));
	pthread_join(reader, NULL);
	row("the read = %s", said);
	sleep_milliseconds(100);
	row("state then = %s", state_of(other));
	close(other);
}

/* The program is started anew, with the descriptor. */
static void started_anew(char **words)
{
	char number[16];
	int status, file = words[0] ? atoi(words[0]) : ended();
	if (words[0]) {
		row("after exec: state = %s", state_of(file));
		row("after exec: read = %s", answer(read(file, bytes, 4)));
		_exit(0);
	}
	ioctl(file, COMEDI_LOCK, INPUT);
	snprintf(number, sizeof number, "%d", file);
	pid_t child = fork();
	if (!child) {
		execl("/proc/self/exe", "cases", "started_anew", number, (char *)NULL);
		_exit(9);
	}
	waitpid(child, &status, 0);
	row("status of the child = %d", WEXITSTATUS(status));
	row("read = %s", answer(read(file, bytes, 100)));
	close(file);
}

/* A descriptor that goes through a socket, and one that /proc opens again. */
static void handed_on(char **words)
{
	union {
		struct cmsghdr head;
		char room[CMSG_SPACE(sizeof(int))];
	} control = { .head = { .cmsg_len = CMSG_LEN(sizeof(int)), .cmsg_level = SOL_SOCKET, .cmsg_type = SCM_RIGHTS } };
	struct iovec piece = { bytes, 1 };
	struct msghdr message = {
		.msg_iov = &piece, .msg_iovlen = 1, .msg_control = control.room, .msg_controllen = sizeof control.room
	};
	char name[40];
	int file = ended(), sockets[2];
	comedi_devinfo d;
	(void)words;
	socketpair(AF_UNIX, SOCK_STREAM, 0, sockets);
	memcpy(CMSG_DATA(&control.head), &file, sizeof file);
	row("sendmsg = %s", answer(sendmsg(sockets[0], &message, 0)));
	row("recvmsg = %s", answer(recvmsg(sockets[1], &message, 0)));
	int received;
	memcpy(&received, CMSG_DATA(&control.head), sizeof received);
	row("DEVINFO of the one that came = %s", answer(ioctl(received, COMEDI_DEVINFO, &d)));
	row("read of the one that came = %s", answer(read(received, bytes, 4)));
	snprintf(name, sizeof name, "/proc/self/fd/%d", file);
	int again = open(name, O_RDWR | O_NONBLOCK);
	row("open of /proc/self/fd = %s", again < 0 ? error_name(errno) : "opened");
	row("DEVINFO of it = %s", answer(ioctl(again, COMEDI_DEVINFO, &d)));
	close(received);
	close(file);
}

static void many_files(char **words)
{
	static int files[100];
	unsigned count = 0;
	(void)words;
	while (count < LENGTH(files) && (files[count] = open(DEVICE, O_RDWR)) >= 0)
		count++;
	row("files at once = %u", count);
	while (count)
		close(files[--count]);
}

int main(int argc, char **argv)
{
	static const struct part parts[] = {
		{ "other_reads", other_reads },
		{ "locks", locks },
		{ "ends", ends },
		{ "signals", signals },
		{ "close_while_reading", close_while_reading },
		{ "started_anew", started_anew },
		{ "handed_on", handed_on },
		{ "many_files", many_files },
	};
	(void)argc;
	return run_part(parts, LENGTH(parts), argv, 120);
}

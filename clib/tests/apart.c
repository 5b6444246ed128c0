/*
 * What the program of answers has of its client: nothing. What the client closes is closed, though the program was started
 * while it was open: a pipe ends, a lock and a name are free. No wait of the client and no SIGCHLD tells of the program.
 */
#define _GNU_SOURCE
#include "client.h"
#include <fcntl.h>
#include <signal.h>
#include <stddef.h>
#include <sys/file.h>
#include <sys/socket.h>
#include <sys/un.h>
#include <sys/wait.h>

static volatile sig_atomic_t signals;

static void note(int number)
{
	(void)number;
	signals++;
}

static void say(const char *what, int is_so)
{
	printf("%s: %s\n", what, is_so ? "yes" : "no");
}

/* A socket with a name that is free when its last descriptor is closed. */
static int take_name(void)
{
	struct sockaddr_un name = { .sun_family = AF_UNIX };
	int length = snprintf(name.sun_path + 1, sizeof name.sun_path - 1, "zendrouz-apart-%d", getpid());
	int descriptor = socket(AF_UNIX, SOCK_STREAM, 0);
	if (!bind(descriptor, (struct sockaddr *)&name, offsetof(struct sockaddr_un, sun_path) + 1 + length))
		return descriptor;
	close(descriptor);
	return -1;
}

/* Whether a pipe has ended: nobody has its other end any more. */
static int has_ended(int descriptor)
{
	char byte;
	fcntl(descriptor, F_SETFL, O_NONBLOCK);
	return read(descriptor, &byte, 1) == 0;
}

static int take_lock(const char *path)
{
	int file = open(path, O_RDWR | O_CREAT, 0600);
	if (!flock(file, LOCK_EX | LOCK_NB))
		return file;
	close(file);
	return -1;
}

static void report_children(const char *when)
{
	int children = 0;
	pid_t child = fork();
	if (!child)
		_exit(0);
	while (wait(NULL) > 0)
		children++;
	printf("%s: %d child, %d signal, then %s\n", when, children, signals, strerror(errno));
	signals = 0;
}

int main(void)
{
	int ends[2], errors[2], standard_error = fcntl(STDERR_FILENO, F_DUPFD_CLOEXEC, 10), name = take_name(), lock = take_lock("apart.lock");
	lsampl_t code;
	signal(SIGCHLD, note);
	alarm(20);
	if (pipe(ends) || pipe(errors))
		return 1;
	dup2(errors[1], STDERR_FILENO);
	comedi_t *device = open_board();
	comedi_data_read(device, 0, 1, 0, AREF_GROUND, &code);
	dup2(standard_error, STDERR_FILENO);
	close(errors[1]);
	close(ends[1]);
	close(name);
	close(lock);
	say("the pipe has ended", has_ended(ends[0]));
	say("standard error has ended", has_ended(errors[0]));
	say("the name is free", take_name() >= 0);
	say("the lock is free", take_lock("apart.lock") >= 0);
	report_children("a board");
	comedi_close(device);
	return 0;
}

/*
 * The program that answers: how it is started, and the lines that it is asked. A line goes out, and its whole answer comes
 * back before anything else is asked, so that a client's children can go on.
 */
#define _GNU_SOURCE
#include "device.h"
#include "server.h"
#include <errno.h>
#include <fcntl.h>
#include <limits.h>
#include <signal.h>
#include <stdio.h>
#include <stdlib.h>
#include <string.h>
#include <sys/resource.h>
#include <sys/syscall.h>
#include <sys/wait.h>
#include <unistd.h>

/* up to which number descriptors are closed one by one */
#define MOST_DESCRIPTORS 1048576

extern char **environ;

static char input[1 << 17];
static size_t from, upto;
static const char *answer = "";

const char *server_answer(void)
{
	return answer;
}

/* What the program gets in place of the client's: the library, by its name in its folder since LD_PRELOAD ends at a blank. */
static char settings[3][2 * PATH_MAX + 32];
static const char *const replaced[] = { "LD_PRELOAD=", "LD_LIBRARY_PATH=", RINGS_VARIABLE "=" };
#define REPLACED (sizeof replaced / sizeof *replaced)

static int is_replaced(const char *setting)
{
	for (size_t i = 0; i < REPLACED; i++)
		if (!strncmp(setting, replaced[i], strlen(replaced[i])))
			return 1;
	return 0;
}

static char **environment_of_server(int memory)
{
	size_t count = 0, kept = 0;
	while (environ[count])
		count++;
	char **copy = calloc(count + REPLACED + 1, sizeof *copy);
	for (size_t i = 0; copy && i < count; i++)
		if (!is_replaced(environ[i]))
			copy[kept++] = environ[i];
	const char *library = program_library(), *name = strrchr(library, '/') + 1;
	snprintf(settings[0], sizeof *settings, "%s%s", replaced[0], name);
	snprintf(settings[1], sizeof *settings, "%s%.*s", replaced[1], (int)(name - library), library);
	snprintf(settings[2], sizeof *settings, "%s%d", replaced[2], memory);
	for (size_t i = 0; copy && i < REPLACED; i++)
		copy[kept++] = settings[i];
	return copy;
}

/* Sees to it that the program gets none of the client's descriptors from 3 on. If the kernel has no call for all of them,
 * they are marked one after another. */
static void keep_descriptors(void)
{
	struct rlimit most = { 1024, 1024 };
	if (!syscall(SYS_close_range, 3, ~0u, CLOSE_RANGE_CLOEXEC))
		return;
	syscall(SYS_prlimit64, 0, RLIMIT_NOFILE, NULL, &most);
	for (rlim_t i = 3; i < most.rlim_cur && i < MOST_DESCRIPTORS; i++)
		syscall(SYS_fcntl, i, F_SETFD, FD_CLOEXEC);
}

/* Gives a descriptor the number that it has in the program. Returns that number, or -1. */
static int put(int descriptor, int number)
{
	if (descriptor == number)
		return syscall(SYS_fcntl, number, F_SETFD, 0) ? -1 : number;
	return syscall(SYS_dup3, descriptor, number, 0);
}

/* Becomes the program. Makes system calls directly, since a name of the C library may need a lock that another thread held
 * when this process was made. */
static void become_server(const char *program, char **environment, int socket, int memory)
{
	char *words[] = { (char *)program, NULL };
	const uint64_t no_signals = 0;
	syscall(SYS_rt_sigprocmask, SIG_SETMASK, &no_signals, NULL, sizeof no_signals);
	syscall(SYS_setsid);
	keep_descriptors();
	if (put(socket, 0) == 0 && put(socket, 1) == 1 && put(memory, memory) == memory)
		execvpe(program, words, environment);
	static const char text[] = "zendrouz: comedi_serve can't be run: it isn't built, or ZENDROUZ_CORE names another file\n";
	syscall(SYS_write, 2, text, sizeof text - 1);
	syscall(SYS_exit_group, 127);
}

/*
 * Starts the program as nobody's child. A process that runs another program is a child that wait() and SIGCHLD tell of,
 * whatever it was made with. So the process that is made here makes another one, which becomes the program, and ends at once. The
 * client's wait() doesn't tell of it, and it is waited for here. Returns 0, or a negative error number.
 */
static int start_apart(const char *program, char **environment, int socket, int memory)
{
	long child = syscall(SYS_clone, 0, 0, 0, 0, 0);
	if (child == 0) {
		long server = syscall(SYS_clone, 0, 0, 0, 0, 0);
		if (server == 0)
			become_server(program, environment, socket, memory);
		rings_note_program(server);
		syscall(SYS_exit_group, 0);
	}
	if (child < 0)
		return -errno;
	while (syscall(SYS_wait4, child, NULL, __WCLONE, NULL) < 0 && errno == EINTR)
		;
	return 0;
}

int server_start(const char *program, const char *head, size_t length)
{
	int socket, memory, result = rings_make(&socket, &memory);
	if (result)
		return result;
	char **environment = environment_of_server(memory);
	result = environment ? start_apart(program, environment, socket, memory) : -ENOMEM;
	free(environment);
	syscall(SYS_close, socket);
	syscall(SYS_close, memory);
	from = upto = 0;
	if (result)
		return result;
	/* where the program ends before it has taken all, its last answer says why */
	rings_write(head, length);
	return 0;
}

/* The next line, without its line feed, or NULL where the program has ended. */
static char *next_line(void)
{
	for (;;) {
		char *end = memchr(input + from, '\n', upto - from);
		if (end) {
			char *line = input + from;
			*end = 0;
			from = end + 1 - input;
			return line;
		}
		memmove(input, input + from, upto - from);
		upto -= from;
		from = 0;
		size_t count = upto < sizeof input ? rings_read(input + upto, sizeof input - upto) : 0;
		if (!count)
			return NULL;
		upto += count;
	}
}

static int starts_with(const char *line, const char *word, size_t length)
{
	return !strncmp(line, word, length) && (line[length] == ' ' || !line[length]);
}

static int is_last(const char *line)
{
	return starts_with(line, "ok", 2) || starts_with(line, "err", 3) || starts_with(line, "refused", 7);
}

/* Reads an answer. Its last line is the answer, and each line before it is given to `each`. */
int server_hear(void (*each)(char *line))
{
	char *heard;
	answer = "";
	while ((heard = next_line())) {
		if (is_last(heard)) {
			answer = heard;
			return 0;
		}
		each(heard);
	}
	server_lose();
	device_changed();
	return -EIO;
}

/* Sends a line, and reads its answer. */
int server_ask(const char *line, size_t length, void (*each)(char *line))
{
	/* answers are read whole; what is here after a fork belongs to a call of the parent */
	from = upto = 0;
	ssize_t sent = rings_write(line, length);
	return server_hear(each) || sent < 0 ? -EIO : 0;
}

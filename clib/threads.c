/*
 * Whether the other threads of this process sleep, by what the kernel shows of them.
 *
 * A thread that waits for an answer of the board's program sleeps too, but has something to do. These calls are counted.
 */
#define _GNU_SOURCE
#include "device.h"
#include <dirent.h>
#include <fcntl.h>
#include <stdio.h>
#include <stdlib.h>
#include <string.h>
#include <sys/stat.h>
#include <sys/syscall.h>
#include <unistd.h>

#define TASKS "/proc/self/task"
#define ROOM 4096

/* one thread looks at the others at a time, and reads what the kernel shows of them here */
static pthread_mutex_t looking = PTHREAD_MUTEX_INITIALIZER;
static char names[ROOM] __attribute__((aligned(8))), status[ROOM];

void threads_hold(void)
{
	pthread_mutex_lock(&looking);
}

void threads_let_go(void)
{
	pthread_mutex_unlock(&looking);
}

/* These make system calls directly: the names of the C library may be cancelled, and a wait has no file of its own then. */
static int open_file(const char *path, int flags)
{
	return syscall(SYS_openat, AT_FDCWD, path, flags | O_CLOEXEC);
}

static int read_text(const char *path, char *text, size_t room)
{
	int file = open_file(path, O_RDONLY);
	if (file < 0)
		return 0;
	long length = syscall(SYS_read, file, text, room - 1);
	syscall(SYS_close, file);
	text[length > 0 ? length : 0] = 0;
	return length > 0;
}

/* Returns how many threads this process has, or 0 if the kernel doesn't say. Their folder has a link for each, and two more. */
unsigned threads_number(void)
{
	struct stat folder;
	return syscall(SYS_newfstatat, AT_FDCWD, TASKS, &folder, 0) || folder.st_nlink < 2 ? 0 : folder.st_nlink - 2;
}

/* How often a thread has been given a processor. */
static uint64_t switches_of(const char *text)
{
	const char *waited = strstr(text, "\nvoluntary_ctxt_switches:"), *taken = strstr(text, "\nnonvoluntary_ctxt_switches:");
	return waited && taken ? strtoull(strchr(waited, ':') + 1, NULL, 10) + strtoull(strchr(taken, ':') + 1, NULL, 10) : 0;
}

/* Whether a thread sleeps, or is no more. Adds what changes once it has run: the number of its wait, in which it may look
 * for itself, or else of its switches. */
static int sleeps(pid_t thread, uint64_t *sum)
{
	char path[64];
	snprintf(path, sizeof path, TASKS "/%d/status", thread);
	if (!read_text(path, status, sizeof status))
		return 1;
	const char *state = strstr(status, "\nState:");
	uint64_t number = turns_number(thread);
	*sum += number ? number << 32 : switches_of(status);
	return state && !strchr("RD", state[strcspn(state, "\t") + 1]);
}

/* One look at each thread but this one. */
static int all_sleep(uint64_t *sum)
{
	int folder = open_file(TASKS, O_RDONLY | O_DIRECTORY), sleep = folder >= 0;
	long length = 0;
	while (sleep && (length = syscall(SYS_getdents64, folder, names, sizeof names)) > 0)
		for (long at = 0; sleep && at < length;) {
			const struct dirent64 *entry = (const struct dirent64 *)(names + at);
			pid_t thread = atoi(entry->d_name);
			if (thread && thread != gettid())
				sleep = sleeps(thread, sum);
			at += entry->d_reclen;
		}
	syscall(SYS_close, folder);
	return sleep;
}

/*
 * Whether all other threads sleep. Answers 0 where one doesn't, and else a number that is another one once any of them has
 * run. In one look a thread that was looked at early may have been woken by one that was looked at late, so two looks tell.
 */
uint64_t threads_sleep(void)
{
	struct quiet quiet;
	uint64_t sum = 1;
	quiet_begin(&quiet);
	threads_hold();
	int sleep = all_sleep(&sum) && !device_callers();
	threads_let_go();
	quiet_end(&quiet);
	return sleep ? sum : 0;
}

/*
 * Opening and closing the device, and who is in it.
 */
#define _GNU_SOURCE
#include "descriptors.h"
#include "device.h"
#include "server.h"
#include <errno.h>
#include <fcntl.h>
#include <stdio.h>
#include <stdlib.h>
#include <string.h>
#include <signal.h>
#include <sys/mman.h>
#include <sys/wait.h>
#include <unistd.h>

/* how the names of devices start, and the number of the first subdevice that has a device of its own */
#define PREFIX "/dev/comedi"
#define FIRST_OF_SUBDEVICES 48

struct device *device;

/* how the client was interrupted before it came in, and its errno, which only a call that fails changes */
static __thread struct quiet outside;
static __thread int outside_errno;
/* how many threads of this process are in the device, or on their way in */
static int callers;
/* how many threads of this process are in a call of each file, and whether its last descriptor was closed meanwhile */
static int calls[MOST_FILES], is_left[MOST_FILES];
/* one thread of this process opens a board at a time */
static pthread_mutex_t opening = PTHREAD_MUTEX_INITIALIZER;

static void begin_call(void)
{
	outside_errno = errno;
	quiet_begin_call(&outside);
	__atomic_add_fetch(&callers, 1, __ATOMIC_SEQ_CST);
}

static void end_call(void)
{
	__atomic_sub_fetch(&callers, 1, __ATOMIC_SEQ_CST);
	quiet_end_call(&outside);
	errno = outside_errno;
}

/* Looks at what the lock of the device was answered. A process that ended within a call leaves an answer half read: nothing
 * can be asked any more. */
static int has_lock(int error)
{
	if (error == EOWNERDEAD) {
		pthread_mutex_consistent(&device->lock);
		server_lose();
		device_changed();
	}
	return !error || error == EOWNERDEAD;
}

/* Lets one thread in at a time. Nothing interrupts it up to device_leave. */
void device_enter(void)
{
	begin_call();
	has_lock(pthread_mutex_lock(&device->lock));
}

/* Like device_enter, unless another thread is in the device. Returns whether this one is. */
int device_try_enter(void)
{
	begin_call();
	int is_in = has_lock(pthread_mutex_trylock(&device->lock));
	if (!is_in)
		end_call();
	return is_in;
}

void device_leave(void)
{
	record_flush();
	pthread_mutex_unlock(&device->lock);
	end_call();
}

/* Returns how often a call has changed what others wait for. */
uint64_t device_changes(void)
{
	return __atomic_load_n(&device->changes, __ATOMIC_SEQ_CST);
}

/* Ends the waits of others for the board. They look again. */
void device_wake(void)
{
	__atomic_add_fetch(&device->changes, 1, __ATOMIC_SEQ_CST);
}

/* Notes that a call has changed what others wait for. */
void device_changed(void)
{
	__atomic_add_fetch(&device->commands, 1, __ATOMIC_SEQ_CST);
	device_wake();
}

int device_callers(void)
{
	return __atomic_load_n(&callers, __ATOMIC_SEQ_CST);
}

/* Keeps all threads from opening a board, up to device_let_go. */
void device_hold(void)
{
	pthread_mutex_lock(&opening);
}

void device_let_go(void)
{
	pthread_mutex_unlock(&opening);
}

/* Notes that a child is about to be made, which has the files of this process, too. Within the lock of the descriptors. */
void device_share(void)
{
	for (int i = 0; device && i < MOST_FILES; i++)
		if (device->file[i].is_open && descriptors_have(i))
			device->file[i].is_shared = 1;
}

/* Called in a child made by fork, which has none of the other threads. */
void device_begin_child(void)
{
	callers = 0;
	memset(calls, 0, sizeof calls);
}

static int ends_with(const char *text, const char *end)
{
	size_t length = strlen(text), tail = strlen(end);
	return length > tail && !strcmp(text + length - tail, end);
}

/* Returns whether a name is that of a device: /dev/comedi0 and its like are the board that ZENDROUZ_BOARD names. */
int device_has_name(const char *path)
{
	return path && !strncmp(path, PREFIX, sizeof PREFIX - 1) && getenv("ZENDROUZ_BOARD");
}

/* Returns the number of a device among those of Comedi: N of /dev/comediN, and of its subdevices the kernel has others. */
int device_minor(const char *path)
{
	const char *number = device_has_name(path) ? path + sizeof PREFIX - 1 : "", *subdevice = strstr(number, "_subd");
	return subdevice ? FIRST_OF_SUBDEVICES + atoi(subdevice + 5) : atoi(number);
}

/* Returns whether to open a name is to open a board. A file *.board is a board itself for who opens it to read and write, as
 * Comedi's programs do. To all others, as editors, it's a file. */
int device_serves(const char *path, int flags)
{
	if (device_has_name(path))
		return 1;
	return path && ends_with(path, ".board") && (flags & O_ACCMODE) == O_RDWR && !(flags & O_CREAT);
}

/* Says why a board isn't there: the program refuses its text, or can't be run. */
static int report_failure(const char *path, const struct text *text)
{
	if (!*server_answer()) {
		message("%s: comedi_serve has ended", path);
		return -EIO;
	}
	text_say_refusal(path, text, server_answer());
	return -EINVAL;
}

/* Starts the program with the board's text, and asks it for the board. */
static int start_program(const char *path)
{
	struct text text = { 0 };
	int result = text_read(path, &text);
	if (!result)
		result = server_start(program_path(), text.bytes, text.length);
	if (!result && board_ask())
		result = report_failure(path, &text);
	free(text.bytes);
	return result;
}

/* Loads the board, for the first file that opens it. */
static int load(const char *path)
{
	snprintf(device->path, sizeof device->path, "%s", path);
	int result = settings_read();
	if (!result)
		result = start_program(path);
	if (!result)
		result = buffer_make_memory();
	if (!result)
		result = record_open();
	if (result)
		return result;
	for (int i = 0; i < MOST_FILES; i++)
		device->file[i].is_open = 0;
	time_start();
	return 0;
}

/* The device's memory: shared with children, so that they use the same board. */
static int make_device(void)
{
	handlers_look();
	if (device)
		return 0;
	void *memory = mmap(NULL, sizeof *device, PROT_READ | PROT_WRITE, MAP_SHARED | MAP_ANONYMOUS, -1, 0);
	if (memory == MAP_FAILED)
		return -ENOMEM;
	pthread_mutexattr_t shared;
	pthread_mutexattr_init(&shared);
	pthread_mutexattr_setpshared(&shared, PTHREAD_PROCESS_SHARED);
	pthread_mutexattr_setrobust(&shared, PTHREAD_MUTEX_ROBUST);
	pthread_mutex_init(&((struct device *)memory)->lock, &shared);
	pthread_mutexattr_destroy(&shared);
	device = memory;
	return 0;
}

/* The first subdevices that take commands of each direction. */
static void choose_defaults(struct file *f)
{
	f->read_subdevice = f->write_subdevice = NO_SUBDEVICE;
	for (int i = device->subdevices - 1; i >= 0; i--) {
		const struct subdevice *s = &device->subdevice[i];
		if (s->flags & SDF_CMD)
			*(board_is_input(s) ? &f->read_subdevice : &f->write_subdevice) = i;
	}
}

static int open_file(void)
{
	for (int i = 0; i < MOST_FILES; i++) {
		struct file *f = &device->file[i];
		if (f->is_open)
			continue;
		int result = line_of_session("open %d", i);
		if (result)
			return result;
		f->is_open = f->is_new = 1;
		f->is_shared = f->has_waited = f->signal = 0;
		f->opener = getpid();
		choose_defaults(f);
		return i;
	}
	return -EMFILE;
}

/* Opens the device, and answers the number of the session's file. One process has one board. */
int device_open(const char *path)
{
	const char *board = device_has_name(path) ? getenv("ZENDROUZ_BOARD") : path;
	struct quiet quiet;
	if (!board)
		return -ENOENT;
	quiet_begin(&quiet);
	device_hold();
	int result = make_device();
	if (!result) {
		device_enter();
		device_close_left();
		if (!*device->path)
			result = load(board);
		if (result)
			*device->path = 0;
		else
			result = strcmp(device->path, board) ? -ENODEV : open_file();
		device_leave();
	}
	device_let_go();
	quiet_end(&quiet);
	return result;
}

static void close_file(int file)
{
	line_of_session("close %d", file);
	device->file[file].is_open = 0;
	device_changed();
}

/* Returns whether a process has ended; a child of this one may not be waited for yet. */
static int has_ended(pid_t process)
{
	siginfo_t information = { .si_pid = 0 };
	if (kill(process, 0) && errno == ESRCH)
		return 1;
	return !waitid(P_PID, process, &information, WEXITED | WNOHANG | WNOWAIT) && information.si_pid == process;
}

/* Returns whether a process has a descriptor of a file, or a thread of this one is in a call of it. If a child of its opener may
 * have one, the kernel is asked. Called within the device. */
static int is_held(int file)
{
	const struct file *f = &device->file[file];
	descriptors_hold();
	int is_here = descriptors_have(file);
	descriptors_let_go();
	is_left[file] = calls[file] && !is_here;
	if (is_here || is_left[file])
		return 1;
	if (f->is_new)
		return !has_ended(f->opener);
	if (!f->is_shared)
		return f->opener != getpid() && !has_ended(f->opener);
	return sockets_has(f->inode) != 0;
}

/* Closes a file of which this process has no descriptor any more, unless another one has. */
void device_close(int file)
{
	device_enter();
	if (device->file[file].is_open && !is_held(file))
		close_file(file);
	device_leave();
}

/* Closes the files of which no process has a descriptor any more, though none has closed them by a name of the C library: the
 * process has ended, or went past the names. */
void device_close_left(void)
{
	descriptors_sweep();
	for (int i = 0; i < MOST_FILES; i++)
		if (device->file[i].is_open && !is_held(i))
			close_file(i);
}

/* Enters for a call of a file. As in the kernel the file stays open up to the end of the call, though another thread may close
 * its last descriptor meanwhile. Returns 0 if it isn't open any more. */
int device_begin_call(int file)
{
	device_enter();
	if (!device->file[file].is_open) {
		device_leave();
		return 0;
	}
	calls[file]++;
	return 1;
}

/* One call of a file less, which is closed if it has no descriptor any more. */
static void leave_file(int file)
{
	if (!--calls[file] && is_left[file] && device->file[file].is_open && !is_held(file))
		close_file(file);
}

void device_end_call(int file)
{
	leave_file(file);
	device_leave();
}

/* Enters for a call of some files, a bit for each. */
void device_begin_calls(unsigned files)
{
	device_enter();
	for (int i = 0; i < MOST_FILES; i++)
		calls[i] += files >> i & 1;
}

/* Ends a call from outside of the device, also if its thread is cancelled in a wait. */
void device_end_calls(void *files)
{
	device_enter();
	for (int i = 0; i < MOST_FILES; i++)
		if (*(const unsigned *)files >> i & 1)
			leave_file(i);
	device_leave();
}

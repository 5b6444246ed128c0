/*
 * The table of descriptors: what each of the client's numbers is to this library, a file of the device or a timer. One lock
 * guards it, and with it the timers (timers.c) and the members of sets (sets.c). Nothing else is locked under that lock,
 * nothing interrupts a thread that holds it (quiet.c), and none holds it while the client makes a child (forks.c).
 *
 * A client can close a number in ways that this library doesn't see, by a system call or within the C library. Then the
 * system gives the number to another file. So the table alone is never believed of a file of the device: its descriptor is
 * a socket that is connected to nobody, and the kernel is asked whether the number is still that. Each call looks for a mark
 * that only these sockets have, which is quick, and each ioctl and open looks at the inodes, too.
 *
 * What reaches the kernel past this library fails, since a read and a write of such a socket do. A poll made so finds it
 * ready, so that it doesn't wait for ever but leads to a read that fails.
 */
#define _GNU_SOURCE
#include "descriptors.h"
#include "device.h"
#include "names.h"
#include <errno.h>
#include <fcntl.h>
#include <sys/socket.h>
#include <sys/stat.h>
#include <sys/syscall.h>
#include <unistd.h>

/* descriptors of the device are kept away from the numbers that clients use */
#define FIRST_PRIVATE 240
#define MOST_PRIVATE 4
/* the mark of a file of the device: its descriptors have this signal (F_SETSIG), which the C library keeps for itself, so
 * that no client asks for it. It's never sent, since nothing happens at such a socket */
#define MARK 32
/* how a word of the table is laid out: a kind, the index of the file or of the timer, and the inode of the file */
#define BITS_OF_KIND 2
#define BITS_OF_INDEX 6
#define BITS_OF_BOTH (BITS_OF_KIND + BITS_OF_INDEX)

enum kind { NOTHING, FILE_OF_DEVICE, TIMER };

/* It is written under the lock, and a word of it is read without. Beyond `used` words nothing was ever written. */
static uint64_t table[DESCRIPTORS];
static int used;
/* which files of the session want a signal when something comes, a bit for each, and by which number that was asked for */
static unsigned asynchronous;
static int asked_by[MOST_FILES];
/* whether the kernel takes marks */
static int has_marks = 1;
/* whose numbers these are: a child made by vfork has this memory, and numbers of its own */
static pid_t process;
static pthread_mutex_t lock = PTHREAD_MUTEX_INITIALIZER;
/* the variables that hold this library's own descriptors */
static int *privates[MOST_PRIVATE];

void descriptors_hold(void)
{
	pthread_mutex_lock(&lock);
}

void descriptors_let_go(void)
{
	pthread_mutex_unlock(&lock);
}

void descriptors_enter(struct quiet *quiet)
{
	quiet_begin(quiet);
	descriptors_hold();
}

void descriptors_leave(const struct quiet *quiet)
{
	descriptors_let_go();
	quiet_end(quiet);
}

/* Called in a child made by fork: the numbers are its own now. */
void descriptors_begin_child(void)
{
	process = getpid();
}

__attribute__((constructor)) static void begin(void)
{
	process = getpid();
}

/* Returns whether this process has the numbers of the table. */
int descriptors_are_ours(void)
{
	return getpid() == process;
}

static uint64_t word_of(int descriptor)
{
	return descriptor >= 0 && descriptor < DESCRIPTORS ? __atomic_load_n(table + descriptor, __ATOMIC_ACQUIRE) : NOTHING;
}

static enum kind kind_of(uint64_t word)
{
	return word & ((1 << BITS_OF_KIND) - 1);
}

static int index_of(uint64_t word)
{
	return word >> BITS_OF_KIND & ((1 << BITS_OF_INDEX) - 1);
}

static uint64_t word_with(enum kind kind, int index, uint64_t inode)
{
	return inode << BITS_OF_BOTH | (uint64_t)index << BITS_OF_KIND | kind;
}

/* Returns the inode of a socket, or 0 if a descriptor is none. Asks the kernel, and leaves errno as it is. */
static uint64_t inode_of(int descriptor)
{
	struct stat state;
	int error = errno, is_socket = !syscall(SYS_fstat, descriptor, &state) && S_ISSOCK(state.st_mode);
	errno = error;
	return is_socket ? state.st_ino : 0;
}

static int is_as_written(int descriptor, uint64_t word)
{
	return inode_of(descriptor) == word >> BITS_OF_BOTH;
}

/* Returns whether a descriptor is a file of the device, by its mark. Leaves errno as it is. */
static int is_marked(int descriptor)
{
	int error = errno, is = REAL(fcntl)(descriptor, F_GETSIG) == MARK;
	errno = error;
	return is;
}

static void write_word(int descriptor, uint64_t word)
{
	if (descriptor >= used)
		__atomic_store_n(&used, descriptor + 1, __ATOMIC_RELEASE);
	__atomic_store_n(table + descriptor, word, __ATOMIC_RELEASE);
}

static void want_signals(int file, int wants)
{
	if (wants)
		__atomic_or_fetch(&asynchronous, 1u << file, __ATOMIC_SEQ_CST);
	else
		__atomic_and_fetch(&asynchronous, ~(1u << file), __ATOMIC_SEQ_CST);
}

/* Returns whether a file of the session has a number in this process, within the lock. */
int descriptors_have(int file)
{
	for (int i = 0; i < used; i++)
		if (kind_of(table[i]) == FILE_OF_DEVICE && index_of(table[i]) == file)
			return 1;
	return 0;
}

/* Removes a number from the table, under the lock. Returns the file of the session that has no number any more, or NO_FILE. */
static int take_out(int descriptor)
{
	uint64_t word = word_of(descriptor);
	if (kind_of(word) == NOTHING)
		return NO_FILE;
	write_word(descriptor, NOTHING);
	if (kind_of(word) == TIMER) {
		timers_forget(index_of(word));
		return NO_FILE;
	}
	sets_forget_member(descriptor);
	if (descriptors_have(index_of(word)))
		return NO_FILE;
	want_signals(index_of(word), 0);
	return index_of(word);
}

/* Forgets a number that goes, or that is another file's from now on. Returns the file of the session that has no number any
 * more, or NO_FILE. */
int descriptors_forget(int descriptor)
{
	struct quiet quiet;
	descriptors_enter(&quiet);
	int file = take_out(descriptor);
	timers_forget_set(descriptor);
	sets_forget(descriptor);
	descriptors_leave(&quiet);
	return file;
}

/* Forgets a number that isn't what its word says: this library didn't see how it was closed. */
static void lose(int descriptor, uint64_t word)
{
	struct quiet quiet;
	descriptors_enter(&quiet);
	if (word_of(descriptor) == word)
		take_out(descriptor);
	descriptors_leave(&quiet);
}

/* Returns the file of the session that a number is, or NO_FILE. */
int descriptors_file(int descriptor)
{
	uint64_t word = word_of(descriptor);
	if (kind_of(word) != FILE_OF_DEVICE)
		return NO_FILE;
	if (has_marks ? is_marked(descriptor) : is_as_written(descriptor, word))
		return index_of(word);
	if (descriptors_are_ours())
		lose(descriptor, word);
	return NO_FILE;
}

/* Asks the kernel about all numbers, and forgets those that were closed past this library. */
void descriptors_sweep(void)
{
	for (int i = 0; i < __atomic_load_n(&used, __ATOMIC_ACQUIRE); i++) {
		uint64_t word = word_of(i);
		if (kind_of(word) == FILE_OF_DEVICE && !is_as_written(i, word) && descriptors_are_ours())
			lose(i, word);
	}
}

/* Returns the index of the timer that a number is, or NO_TIMER. */
int descriptors_timer(int descriptor)
{
	uint64_t word = word_of(descriptor);
	return kind_of(word) == TIMER ? index_of(word) : NO_TIMER;
}

/* Makes a descriptor for a file of the session. Returns its number, or a negative error number. */
int descriptors_make(int file, int flags)
{
	struct quiet quiet;
	int descriptor = socket(AF_UNIX, SOCK_STREAM | (flags & O_CLOEXEC ? SOCK_CLOEXEC : 0) | (flags & O_NONBLOCK ? SOCK_NONBLOCK : 0), 0);
	if (descriptor < 0)
		return -errno;
	if (descriptor >= DESCRIPTORS) {
		REAL(close)(descriptor);
		return -EMFILE;
	}
	if (flags & O_APPEND)
		REAL(fcntl)(descriptor, F_SETFL, flags & (O_APPEND | O_NONBLOCK));
	has_marks = has_marks && !REAL(fcntl)(descriptor, F_SETSIG, MARK);
	descriptors_enter(&quiet);
	device->file[file].never_waits = (flags & O_NONBLOCK) != 0;
	device->file[file].mode = flags & O_ACCMODE;
	device->file[file].inode = inode_of(descriptor);
	write_word(descriptor, word_with(FILE_OF_DEVICE, file, device->file[file].inode));
	device->file[file].is_new = 0;
	descriptors_leave(&quiet);
	return descriptor;
}

/* Notes that a number is a timer, within the lock. */
void descriptors_put_timer(int descriptor, int index)
{
	if (descriptor < DESCRIPTORS)
		write_word(descriptor, word_with(TIMER, index, 0));
}

/* Notes that a number was made from another one, and is the same file. */
void descriptors_double(int old, int new)
{
	struct quiet quiet;
	uint64_t word = descriptors_file(old) == NO_FILE ? NOTHING : word_of(old);
	if (new < 0 || new >= DESCRIPTORS || kind_of(word) == NOTHING)
		return;
	descriptors_enter(&quiet);
	write_word(new, word);
	descriptors_leave(&quiet);
}

/* Asks the kernel for the flags of a file of the device after they were set: whether its calls wait, and whether it wants a
 * signal when samples come. */
void descriptors_note_flags(int descriptor)
{
	struct quiet quiet;
	int flags = REAL(fcntl)(descriptor, F_GETFL);
	descriptors_enter(&quiet);
	uint64_t word = word_of(descriptor);
	if (flags >= 0 && kind_of(word) == FILE_OF_DEVICE) {
		device->file[index_of(word)].never_waits = (flags & O_NONBLOCK) != 0;
		want_signals(index_of(word), (flags & O_ASYNC) != 0);
		asked_by[index_of(word)] = descriptor;
	}
	descriptors_leave(&quiet);
}

/* Returns which files of the session want a signal when something comes, a bit for each. */
unsigned descriptors_asynchronous(void)
{
	return __atomic_load_n(&asynchronous, __ATOMIC_SEQ_CST);
}

/* Returns a number of a file of the session, or -1: the one by which it was asked for signals, if it's still there. */
int descriptors_of(int file)
{
	if (descriptors_file(asked_by[file]) == file)
		return asked_by[file];
	for (int i = 0; i < __atomic_load_n(&used, __ATOMIC_ACQUIRE); i++)
		if (descriptors_file(i) == file)
			return i;
	return -1;
}

/* Moves a descriptor of this library away from the numbers that clients use. Returns its new number. */
int keep_away(int descriptor)
{
	int away = descriptor < 0 ? -1 : REAL(fcntl)(descriptor, F_DUPFD_CLOEXEC, FIRST_PRIVATE);
	if (away < 0)
		return descriptor;
	syscall(SYS_close, descriptor);
	return away;
}

/* Protects the descriptor that a variable holds, now and later: the client can't close it. */
void descriptors_protect(int *place)
{
	for (int i = 0; i < MOST_PRIVATE; i++)
		if (!privates[i] || privates[i] == place) {
			privates[i] = place;
			return;
		}
}

int descriptors_are_private(int descriptor)
{
	for (int i = 0; i < MOST_PRIVATE && descriptor >= 0; i++)
		if (privates[i] && *privates[i] == descriptor)
			return 1;
	return 0;
}

/* Moves a descriptor of this library, since the client takes its number by dup2. Called within the device. */
void descriptors_make_way(int descriptor)
{
	for (int i = 0; i < MOST_PRIVATE; i++)
		if (privates[i] && *privates[i] == descriptor) {
			int away = REAL(fcntl)(descriptor, F_DUPFD_CLOEXEC, FIRST_PRIVATE);
			if (away >= 0)
				*privates[i] = away;
		}
}

/*
 * The C library's names that wait for files: poll and select. Of files that are asked for together, the device's are asked
 * of the board and the others of the kernel. A wait for others alone takes its time of the client's, unless one is ready.
 */
#define _GNU_SOURCE
#include "clocks.h"
#include "device.h"
#include "names.h"
#include "server.h"
#include <errno.h>
#include <limits.h>
#include <poll.h>
#include <stddef.h>
#include <string.h>
#include <sys/mman.h>
#include <sys/select.h>
#include <time.h>
#include <unistd.h>

/* the C library's header says that poll only writes its array, so that a poll of our own seems to read what isn't there */
#ifndef __clang__
#pragma GCC diagnostic ignored "-Wmaybe-uninitialized"
#endif

/* with files of the device among them */
#define MOST_POLLED 256
/* so many have room on the client's stack */
#define FEW 32
/* no answer of a select */
#define NOT_OURS (-2)
#define READS (POLLIN | POLLRDNORM)
#define WRITES (POLLOUT | POLLWRNORM)

/* What is asked for together, and of each which file of the device it is. `held` has a bit for each such file: it stays open
 * meanwhile. `signals` is the mask with which is waited, if the client gave one, and `seen` the changes of the board up to
 * the last look. `set` is the set of which these are the members, or NO_SET. */
struct ask {
	struct pollfd *asked;
	nfds_t count;
	int has_file, has_timer, has_others, set;
	unsigned held, members;
	const sigset_t *signals;
	uint64_t seen;
	signed char files[MOST_POLLED];
};

static void find_ask(struct ask *a, struct pollfd *asked, nfds_t count)
{
	memset(a, 0, offsetof(struct ask, files));
	a->asked = asked;
	a->count = count;
	a->set = NO_SET;
	for (nfds_t i = 0; i < count; i++) {
		int file = names_file(asked[i].fd);
		if (i < MOST_POLLED)
			a->files[i] = file;
		a->has_file |= file != NO_FILE;
		a->held |= file == NO_FILE ? 0 : 1u << file;
		a->has_others |= file == NO_FILE && asked[i].fd >= 0;
		a->has_timer |= time_is_shown() && timers_are_in(asked[i].fd);
	}
}

/* Whether a wait is for a file of the device, or takes time of the client's. */
static int is_ours(const struct ask *a, int64_t nanoseconds)
{
	return a->has_file || a->has_timer || (time_is_shown() && nanoseconds > 0);
}

/* Room for what is asked for together: on the stack for few, and else in pages of its own, since a signal's handler may
 * poll, too, and must not ask for memory. */
struct room {
	struct pollfd few[FEW], *files;
	size_t bytes;
};

static int make_room(struct room *room, nfds_t count)
{
	room->files = room->few;
	room->bytes = count > FEW ? count * sizeof *room->files : 0;
	if (!room->bytes)
		return 0;
	room->files = REAL(mmap)(NULL, room->bytes, PROT_READ | PROT_WRITE, MAP_PRIVATE | MAP_ANONYMOUS, -1, 0);
	return room->files == MAP_FAILED ? -ENOMEM : 0;
}

static void give_room_back(void *what)
{
	struct room *room = what;
	if (room->bytes && room->files != MAP_FAILED)
		munmap(room->files, room->bytes);
}

/* Asks the kernel for the files that aren't the device's, with a copy of what is asked. */
static int ask_with_copy(struct ask *a, struct pollfd *others, const struct timespec *time, const sigset_t *signals)
{
	for (nfds_t i = 0; i < a->count; i++) {
		others[i] = a->asked[i];
		if (a->files[i] != NO_FILE)
			others[i].fd = -1;
	}
	int ready = REAL(ppoll)(others, a->count, time, signals);
	for (nfds_t i = 0; i < a->count; i++)
		a->asked[i].revents = ready < 0 || others[i].fd < 0 ? 0 : others[i].revents;
	return ready;
}

/* Asks the kernel for the files that aren't the device's. A thread that is cancelled meanwhile keeps no memory. */
static int ask_for_others(struct ask *a, const struct timespec *time, const sigset_t *signals)
{
	struct room room;
	int ready = -1;
	if (make_room(&room, a->count)) {
		errno = ENOMEM;
		return -1;
	}
	pthread_cleanup_push(give_room_back, &room);
	ready = ask_with_copy(a, room.files, time, signals);
	pthread_cleanup_pop(1);
	return ready;
}

/* Asks the kernel, and waits really for up to so long. Answers how many of the other files are ready. */
static int ask_kernel(struct ask *a, uint64_t nanoseconds, const sigset_t *signals)
{
	struct timespec time = clocks_time(nanoseconds);
	return a->has_file ? ask_for_others(a, &time, signals) : REAL(ppoll)(a->asked, a->count, &time, signals);
}

/* Returns what a file of the device is ready for. A member of a set that is asked for changes alone is ready after a change. */
static short ready_events(const struct ask *a, nfds_t i)
{
	int file = a->files[i];
	short asked = a->asked[i].events, found = 0;
	if (asked & READS && stream_ready_to_read(file))
		found |= asked & READS;
	if (asked & WRITES && stream_ready_to_write(file))
		found |= asked & WRITES;
	return found && (a->set == NO_SET || sets_have_news(a->set, a->asked[i].fd, file)) ? found : 0;
}

/* Looks what is ready now. A descriptor that was closed meanwhile is no file any more, as the kernel finds when it looks again. */
static int ask_ready(struct ask *a)
{
	int ready = ask_kernel(a, 0, NULL);
	if (ready < 0)
		return -errno;
	for (nfds_t i = 0; i < a->count && a->has_file; i++) {
		struct pollfd *asked = a->asked + i;
		if (a->files[i] == NO_FILE)
			continue;
		asked->revents = names_file(asked->fd) == a->files[i] ? ready_events(a, i) : POLLNVAL;
		ready += asked->revents != 0;
	}
	return ready;
}

/* Returns the next time at which a file of the device gets ready, or may be ready once more. At the horizon none does any more. */
static uint64_t next_time(const struct ask *a)
{
	uint64_t first = NEVER, time;
	for (nfds_t i = 0; a->has_file && i < a->count && device->now < device->horizon; i++) {
		short events = a->asked[i].events;
		if (a->files[i] == NO_FILE)
			continue;
		int has_edges = a->set != NO_SET && sets_have_edges(a->set, a->asked[i].fd);
		int (*next)(int file, int reads, int writes, uint64_t *time) = has_edges ? stream_next_change : stream_next_time;
		if (next(a->files[i], events & READS, events & WRITES, &time) && time < first)
			first = time;
	}
	return first;
}

/* One look: what is ready, and when more is of the device. */
static int look(struct ask *a, uint64_t *next)
{
	device_enter();
	time_catch_up();
	timers_ring();
	a->seen = device_changes();
	int ready = ask_ready(a);
	if (!ready)
		*next = next_time(a);
	if (a->has_file && server_is_lost())
		ready = -EIO;
	device_leave();
	return ready;
}

/* A real wait for the other files. */
static int pause_poll(void *what, uint64_t nanoseconds, const sigset_t *signals)
{
	int ready = ask_kernel(what, nanoseconds, signals);
	return ready < 0 ? -errno : ready ? CAME : 0;
}

/* When the next of the timers is due. */
static uint64_t next_timer(void *what)
{
	const struct ask *a = what;
	uint64_t first = NEVER;
	for (nfds_t i = 0; i < a->count; i++) {
		uint64_t time = timers_next(a->asked[i].fd);
		first = time < first ? time : first;
	}
	return first;
}

/* Waits for the other files, the timers, and a change of the board. */
static int wait_until(struct ask *a, uint64_t time)
{
	return turns_wait(time, &(struct wait){ .pause = pause_poll, .due = a->has_timer ? next_timer : NULL, .what = a,
		.seen = a->has_file || a->set != NO_SET ? &a->seen : NULL, .signals = a->signals });
}

/* Returns whether nothing ends a wait any more. */
static int is_in_vain(const struct ask *a, uint64_t next, uint64_t end)
{
	return next == NEVER && end == NEVER && !a->has_timer && !a->has_others;
}

/* Time goes on to the next sample, the next timer, or the end of the wait. If the members of a set change, nothing is ready. */
static int poll_any(struct ask *a, uint64_t end)
{
	for (;;) {
		uint64_t next = NEVER;
		int ready = look(a, &next);
		if (ready || device->client_now >= end || is_in_vain(a, next, end))
			return ready;
		if (a->set != NO_SET && sets_changes() != a->members)
			return 0;
		int result = wait_until(a, next < end ? next : end);
		/* as in the kernel what is ready comes before a signal, which may have come with it */
		ready = result < 0 ? look(a, &next) : 0;
		if (result < 0)
			return ready ? ready : result;
	}
}

/* Polls files of the device among others. This takes a call's time, and the files stay open meanwhile. A single thread can't
 * close them. */
static int poll_files(struct ask *a, int64_t nanoseconds)
{
	int result;
	if (a->count > MOST_POLLED)
		return -EINVAL;
	a->held = turns_is_only_thread() ? 0 : a->held;
	device_begin_calls(a->held);
	time_call();
	device_leave();
	if (!a->held)
		return poll_any(a, time_after(nanoseconds));
	pthread_cleanup_push(device_end_calls, &a->held);
	result = poll_any(a, time_after(nanoseconds));
	pthread_cleanup_pop(1);
	return result;
}

static int poll_ours(struct ask *a, int64_t nanoseconds)
{
	pthread_testcancel();
	return names_answer(a->has_file ? poll_files(a, nanoseconds) : poll_any(a, time_after(nanoseconds)));
}

/* Polls some files for another name, for so long or for ever. */
int polls_wait(struct pollfd *asked, nfds_t count, int64_t nanoseconds)
{
	struct timespec time = clocks_time(nanoseconds);
	struct ask a;
	find_ask(&a, asked, count);
	return is_ours(&a, nanoseconds) ? poll_ours(&a, nanoseconds) : REAL(ppoll)(asked, count, nanoseconds < 0 ? NULL : &time, NULL);
}

/* Polls the members of a set, of which there have been so many changes, with a mask of signals if there is one: then all
 * signals are blocked already. As in the kernel a set doesn't keep its members open. */
int polls_wait_for_set(int set, unsigned changes, struct pollfd *asked, nfds_t count, int64_t nanoseconds, const sigset_t *signals)
{
	struct ask a;
	find_ask(&a, asked, count);
	a.set = set;
	a.held = 0;
	a.members = changes;
	a.signals = signals;
	return poll_ours(&a, nanoseconds);
}

/* Returns whether what is asked can be read. If not, the kernel refuses it. */
static int can_ask(const struct pollfd *asked, nfds_t count)
{
	return count <= INT_MAX && memory_is_there(asked, count * sizeof *asked);
}

PUBLIC int poll(struct pollfd *asked, nfds_t count, int milliseconds)
{
	struct ask a;
	if (!can_ask(asked, count))
		return REAL(poll)(asked, count, milliseconds);
	int64_t nanoseconds = milliseconds < 0 ? -1 : milliseconds * 1000000ll;
	find_ask(&a, asked, count);
	return is_ours(&a, nanoseconds) ? poll_ours(&a, nanoseconds) : REAL(poll)(asked, count, milliseconds);
}

PUBLIC int __poll_chk(struct pollfd *asked, nfds_t count, int milliseconds, size_t room)
{
	if (count * sizeof *asked > room)
		return names_answer(-EINVAL);
	return poll(asked, count, milliseconds);
}

/* Ends a poll with a mask of signals, also if its thread is cancelled. */
void polls_restore_signals(void *signals)
{
	pthread_sigmask(SIG_SETMASK, signals, NULL);
}

/* A poll with a mask of signals: one that is pending already ends it at once, and later ones are
 * delivered during its waits. */
static int poll_masked(struct ask *a, int64_t nanoseconds, const sigset_t *signals)
{
	sigset_t old;
	int result;
	if (!signals)
		return poll_ours(a, nanoseconds);
	if (signals_exchange(signals, &old))
		return names_answer(-EINTR);
	a->signals = signals;
	pthread_cleanup_push(polls_restore_signals, &old);
	result = poll_ours(a, nanoseconds);
	pthread_cleanup_pop(1);
	return result;
}

PUBLIC int ppoll(struct pollfd *asked, nfds_t count, const struct timespec *time, const sigset_t *signals)
{
	struct ask a;
	if (!can_ask(asked, count))
		return REAL(ppoll)(asked, count, time, signals);
	find_ask(&a, asked, count);
	if ((time && !clocks_is_time(time)) || !is_ours(&a, clocks_nanoseconds(time)))
		return REAL(ppoll)(asked, count, time, signals);
	return poll_masked(&a, clocks_nanoseconds(time), signals);
}

PUBLIC int __ppoll_chk(struct pollfd *asked, nfds_t count, const struct timespec *time, const sigset_t *signals, size_t room)
{
	if (count * sizeof *asked > room)
		return names_answer(-EINVAL);
	return ppoll(asked, count, time, signals);
}

/* The three sets of a select, of numbers below a count. */
struct sets {
	int count;
	fd_set *reads, *writes, *others;
};

static int can_read_set(const fd_set *set, int count)
{
	return !set || memory_is_there(set, (count + NFDBITS - 1) / NFDBITS * sizeof(fd_mask));
}

/* Returns whether a select may be for the device: its count can be that of sets, and these can be read. If not, the kernel
 * refuses it. */
static int can_select(const struct sets *sets)
{
	int count = sets->count;
	return device && count >= 0 && count <= FD_SETSIZE && can_read_set(sets->reads, count) && can_read_set(sets->writes, count) &&
		can_read_set(sets->others, count);
}

/* Returns what a number is asked for. */
static short events_of(const struct sets *sets, int number)
{
	short events = (sets->reads && FD_ISSET(number, sets->reads) ? POLLIN : 0) | (sets->writes && FD_ISSET(number, sets->writes) ? POLLOUT : 0);
	return events | (sets->others && FD_ISSET(number, sets->others) ? POLLPRI : 0);
}

static nfds_t members_of(const struct sets *sets)
{
	nfds_t members = 0;
	for (int i = 0; i < sets->count; i++)
		members += events_of(sets, i) != 0;
	return members;
}

/* The members of sets, as a poll has them. */
static void put_members(const struct sets *sets, struct pollfd *asked)
{
	for (int i = 0; i < sets->count; i++)
		if (events_of(sets, i))
			*asked++ = (struct pollfd){ i, events_of(sets, i), 0 };
}

/* Makes a set of those that were asked for an event, and have one of some. Answers how many. As the kernel, this writes as
 * many longs as hold the numbers below `count`: a client may have made its set no longer. */
static int fill_set(fd_set *set, int count, const struct ask *a, short event, short found)
{
	int ready = 0;
	if (set)
		memset(set, 0, (count + NFDBITS - 1) / NFDBITS * sizeof(fd_mask));
	for (nfds_t i = 0; i < a->count; i++)
		if (a->asked[i].events & event && a->asked[i].revents & found) {
			FD_SET(a->asked[i].fd, set);
			ready++;
		}
	return ready;
}

/* A select is a poll of its members. */
static int select_members(const struct sets *sets, struct ask *a, int64_t nanoseconds, const sigset_t *signals)
{
	if (poll_masked(a, nanoseconds, signals) < 0)
		return -1;
	for (nfds_t i = 0; i < a->count; i++)
		if (a->asked[i].revents & POLLNVAL)
			return names_answer(-EBADF);
	int ready = fill_set(sets->reads, sets->count, a, POLLIN, POLLIN | POLLHUP | POLLERR);
	ready += fill_set(sets->writes, sets->count, a, POLLOUT, POLLOUT | POLLERR);
	return ready + fill_set(sets->others, sets->count, a, POLLPRI, POLLPRI);
}

/* Does a select. Returns NOT_OURS if it isn't for the device and takes none of its time. */
static int select_ours(const struct sets *sets, int64_t nanoseconds, const sigset_t *signals)
{
	struct room room;
	struct ask a;
	int result = NOT_OURS;
	nfds_t members = members_of(sets);
	if (make_room(&room, members))
		return names_answer(-ENOMEM);
	pthread_cleanup_push(give_room_back, &room);
	put_members(sets, room.files);
	find_ask(&a, room.files, members);
	if (is_ours(&a, nanoseconds))
		result = select_members(sets, &a, nanoseconds, signals);
	pthread_cleanup_pop(1);
	return result;
}

/* Does a select of no files that has an end and no mask, which is a sleep. Returns NOT_OURS if sleeps are real. */
static int select_nothing(int64_t nanoseconds)
{
	int64_t left = signals_sleep(nanoseconds);
	return left == SLEEP_IS_REAL ? NOT_OURS : left ? names_answer(-EINTR) : 0;
}

/* As the kernel, this leaves in `time` what is left of it. */
PUBLIC int select(int count, fd_set *reads, fd_set *writes, fd_set *others, struct timeval *time)
{
	const struct sets sets = { count, reads, writes, others };
	if (!can_select(&sets) || (time && (time->tv_sec < 0 || time->tv_usec < 0)))
		return REAL(select)(count, reads, writes, others, time);
	struct timespec same = { time ? time->tv_sec : 0, time ? time->tv_usec * 1000 : 0 };
	int64_t nanoseconds = time ? clocks_nanoseconds(&same) : -1;
	uint64_t end = time_after(nanoseconds);
	int result = select_ours(&sets, nanoseconds, NULL);
	if (result == NOT_OURS) {
		result = !count && time ? select_nothing(nanoseconds) : NOT_OURS;
		return result == NOT_OURS ? REAL(select)(count, reads, writes, others, time) : result;
	}
	same = clocks_time(time_until(end));
	if (time)
		*time = (struct timeval){ same.tv_sec, same.tv_nsec / 1000 };
	return result;
}

PUBLIC int pselect(int count, fd_set *reads, fd_set *writes, fd_set *others, const struct timespec *time, const sigset_t *signals)
{
	const struct sets sets = { count, reads, writes, others };
	if (!can_select(&sets) || (time && !clocks_is_time(time)))
		return REAL(pselect)(count, reads, writes, others, time, signals);
	int result = select_ours(&sets, clocks_nanoseconds(time), signals);
	if (result == NOT_OURS && !count && time && !signals)
		result = select_nothing(clocks_nanoseconds(time));
	return result == NOT_OURS ? REAL(pselect)(count, reads, writes, others, time, signals) : result;
}

/*
 * Sets of descriptors (epoll). The kernel's set has the other files, and the device's are kept here. A wait is a poll of
 * the device's members and of the set itself. A wait of a set without a file of the device is the kernel's alone. If another
 * thread adds one meanwhile, it adds the bell to the kernel's set too, a file that can always be read: that ends the wait.
 */
#define _GNU_SOURCE
#include "clocks.h"
#include "descriptors.h"
#include "device.h"
#include "names.h"
#include "server.h"
#include <errno.h>
#include <string.h>
#include <sys/epoll.h>
#include <sys/eventfd.h>
#include <sys/syscall.h>
#include <unistd.h>

#define MOST_MEMBERS 64
/* what the device's members can be asked for */
#define KNOWN_EVENTS (EPOLLIN | EPOLLOUT | EPOLLRDNORM | EPOLLWRNORM)

/* A member. One that is asked for edges has what had happened when it was found ready last, and when that was told. */
static struct member {
	int is_there, set, descriptor, is_told;
	struct epoll_event event;
	struct happened found, told;
} members[MOST_MEMBERS];

/* how often members came, went or were changed */
static unsigned changes;
/* the bell, and how many threads wait for each set in the kernel alone */
static int bell = -1;
static int sleepers[DESCRIPTORS];

static struct member *find(int set, int descriptor)
{
	for (int i = 0; i < MOST_MEMBERS; i++)
		if (members[i].is_there && members[i].set == set && members[i].descriptor == descriptor)
			return members + i;
	return NULL;
}

static int add(int set, int descriptor, const struct epoll_event *event)
{
	for (int i = 0; i < MOST_MEMBERS; i++)
		if (!members[i].is_there) {
			members[i] = (struct member){ .is_there = 1, .set = set, .descriptor = descriptor, .event = *event };
			return 0;
		}
	return -ENOSPC;
}

unsigned sets_changes(void)
{
	return __atomic_load_n(&changes, __ATOMIC_SEQ_CST);
}

/* A number is no set any more. */
void sets_forget(int set)
{
	for (int i = 0; i < MOST_MEMBERS; i++)
		if (members[i].set == set)
			members[i].is_there = 0;
}

/* A number is no file of the device any more, and so no member. */
void sets_forget_member(int descriptor)
{
	for (int i = 0; i < MOST_MEMBERS; i++)
		if (members[i].descriptor == descriptor)
			members[i].is_there = 0;
}

/* Called in a child made by fork, in which no other thread waits. */
void sets_begin_child(void)
{
	memset(sleepers, 0, sizeof sleepers);
}

/* Adds, changes or removes a member, within the lock of the descriptors. */
static int change_member(int set, int what, int descriptor, const struct epoll_event *event)
{
	struct member *m = find(set, descriptor);
	if (what == EPOLL_CTL_ADD)
		return m ? -EEXIST : add(set, descriptor, event);
	if (what != EPOLL_CTL_DEL && what != EPOLL_CTL_MOD)
		return -EINVAL;
	if (!m)
		return -ENOENT;
	if (what == EPOLL_CTL_DEL)
		m->is_there = 0;
	else
		m->event = *event;
	m->is_told = 0;
	return 0;
}

static void make_bell(void)
{
	struct quiet quiet;
	descriptors_enter(&quiet);
	if (bell < 0) {
		bell = keep_away(syscall(SYS_eventfd2, 1, EFD_CLOEXEC | EFD_NONBLOCK));
		descriptors_protect(&bell);
	}
	descriptors_leave(&quiet);
}

/* Ends the waits of other threads for a set, so that they look at its members again. */
static void wake_others(int set)
{
	struct epoll_event event = { .events = EPOLLIN, .data.u64 = (uintptr_t)&bell };
	__atomic_add_fetch(&changes, 1, __ATOMIC_SEQ_CST);
	device_wake();
	if (set < 0 || set >= DESCRIPTORS || !__atomic_load_n(sleepers + set, __ATOMIC_SEQ_CST))
		return;
	make_bell();
	REAL(epoll_ctl)(set, EPOLL_CTL_ADD, bell, &event);
}

static int change(int set, int what, int descriptor, const struct epoll_event *event)
{
	struct quiet quiet;
	struct epoll_event nothing;
	if (what != EPOLL_CTL_DEL && !memory_is_there(event, sizeof *event))
		return -EFAULT;
	/* the kernel's answer if a number isn't a set */
	if (REAL(epoll_ctl)(set, EPOLL_CTL_DEL, descriptor, &nothing) && (errno == EBADF || errno == EINVAL))
		return -errno;
	descriptors_enter(&quiet);
	int result = change_member(set, what, descriptor, event);
	descriptors_leave(&quiet);
	if (!result)
		wake_others(set);
	return result;
}

PUBLIC int epoll_ctl(int set, int what, int descriptor, struct epoll_event *event)
{
	if (names_file(descriptor) != NO_FILE)
		return names_answer(change(set, what, descriptor, event));
	int result = REAL(epoll_ctl)(set, what, descriptor, event);
	if (!result && what != EPOLL_CTL_MOD)
		timers_put(descriptor, what == EPOLL_CTL_ADD ? set : -1);
	return result;
}

/* Returns whether a member is asked for edges: it's told only that something has happened since it was told last. */
int sets_have_edges(int set, int descriptor)
{
	struct quiet quiet;
	descriptors_enter(&quiet);
	const struct member *m = find(set, descriptor);
	int have = m && m->event.events & EPOLLET;
	descriptors_leave(&quiet);
	return have;
}

/* Returns whether a member that is ready is reported. Within the device. */
int sets_have_news(int set, int descriptor, int file)
{
	struct quiet quiet;
	struct happened happened;
	if (!sets_have_edges(set, descriptor))
		return 1;
	stream_happened(file, &happened);
	descriptors_enter(&quiet);
	struct member *m = find(set, descriptor);
	int have = m && (!m->is_told || memcmp(&m->told, &happened, sizeof happened));
	if (m)
		m->found = happened;
	descriptors_leave(&quiet);
	return have;
}

/* Lists the set itself, and the device's members of it. Returns how many there are. */
static int ask_of(int set, struct pollfd *asked)
{
	struct quiet quiet;
	int count = 1;
	asked[0] = (struct pollfd){ set, POLLIN, 0 };
	descriptors_enter(&quiet);
	for (int i = 0; i < MOST_MEMBERS; i++)
		if (members[i].is_there && members[i].set == set)
			asked[count++] = (struct pollfd){ members[i].descriptor, members[i].event.events & KNOWN_EVENTS, 0 };
	descriptors_leave(&quiet);
	return count;
}

/* Takes what a member was found ready for, once: another thread may have taken it, or removed the member. Returns 0 if there
 * is nothing. */
static uint32_t take_member(struct member *m, uint32_t found)
{
	uint32_t events = m ? found & m->event.events : 0;
	if (!events || (m->event.events & EPOLLET && m->is_told && !memcmp(&m->told, &m->found, sizeof m->told)))
		return 0;
	m->told = m->found;
	m->is_told = 1;
	if (m->event.events & EPOLLONESHOT)
		m->event.events = EPOLLONESHOT;
	return events;
}

/* Takes the events of the device's members that were found ready. */
static int take_own_events(const struct pollfd *asked, int count, struct epoll_event *events, int most)
{
	struct quiet quiet;
	int done = 0;
	descriptors_enter(&quiet);
	for (int i = 1; i < count && done < most; i++) {
		struct member *m = asked[i].revents ? find(asked[0].fd, asked[i].fd) : NULL;
		uint32_t found = take_member(m, asked[i].revents);
		if (found)
			events[done++] = (struct epoll_event){ .events = found, .data = m->event.data };
	}
	descriptors_leave(&quiet);
	return done;
}

/* Takes the bell out of events, and out of its set if no other thread has to hear it. Returns whether it was among them. */
static int take_bell(int set, struct epoll_event *events, int *count)
{
	int kept = 0;
	for (int i = 0; i < *count; i++)
		if (events[i].data.u64 != (uintptr_t)&bell)
			events[kept++] = events[i];
	int was_there = kept < *count;
	if (was_there && !__atomic_load_n(sleepers + set, __ATOMIC_SEQ_CST))
		REAL(epoll_ctl)(set, EPOLL_CTL_DEL, bell, &(struct epoll_event){ 0 });
	*count = was_there ? kept : *count;
	return was_there;
}

/* Takes the events of what was found ready. Returns their number, or -1 if there is no such set. */
static int take_events(const struct pollfd *asked, int count, struct epoll_event *events, int most)
{
	int done = take_own_events(asked, count, events, most);
	if (!asked[0].revents || done == most)
		return done;
	int others = REAL(epoll_wait)(asked[0].fd, events + done, most - done, 0);
	take_bell(asked[0].fd, events + done, &others);
	return done ? done + (others > 0 ? others : 0) : others;
}

/* Polls the device's members, and the set itself for the others. Another thread may take what was found there, or
 * change the members. */
static int poll_members(int set, struct epoll_event *events, int most, int64_t nanoseconds, const sigset_t *signals)
{
	struct pollfd asked[MOST_MEMBERS + 1];
	uint64_t end = time_after(nanoseconds);
	for (;;) {
		unsigned seen = sets_changes();
		int count = ask_of(set, asked);
		int ready = polls_wait_for_set(set, seen, asked, count, nanoseconds, signals);
		if (ready < 0)
			return -1;
		if (ready && !memory_takes_events(events))
			return names_answer(-EFAULT);
		int done = take_events(asked, count, events, most);
		if (done || (end != NEVER && device->client_now >= end))
			return done;
		nanoseconds = end == NEVER ? -1 : (int64_t)time_until(end);
	}
}

static int has_members(int set)
{
	struct quiet quiet;
	int has = 0;
	descriptors_enter(&quiet);
	for (int i = 0; i < MOST_MEMBERS; i++)
		has |= members[i].is_there && members[i].set == set;
	descriptors_leave(&quiet);
	return has;
}

/* Whether a wait of a set is for the board, or takes its time. */
static int is_ours(int set, int64_t nanoseconds)
{
	return has_members(set) || (time_is_shown() && (nanoseconds > 0 || timers_are_in(set)));
}

/* A wait with a mask of signals: one that waits already ends it at once. */
static int wait_masked(int set, struct epoll_event *events, int most, int64_t nanoseconds, const sigset_t *signals)
{
	sigset_t old;
	int result;
	if (!signals)
		return poll_members(set, events, most, nanoseconds, NULL);
	if (signals_exchange(signals, &old))
		return names_answer(-EINTR);
	pthread_cleanup_push(polls_restore_signals, &old);
	result = poll_members(set, events, most, nanoseconds, signals);
	pthread_cleanup_pop(1);
	return result;
}

static void leave_kernel(void *set)
{
	__atomic_sub_fetch(sleepers + *(int *)set, 1, __ATOMIC_SEQ_CST);
}

/* Waits for a set: for `milliseconds`, or for `time` if it isn't NULL. Other threads see that this one does before it looks
 * whether the set has files of the device. */
static int wait_for_set(int set, struct epoll_event *events, int most, int milliseconds, const struct timespec *time, const sigset_t *signals)
{
	int64_t nanoseconds = time ? clocks_nanoseconds(time) : milliseconds < 0 ? -1 : milliseconds * 1000000ll;
	int ready = 0, is_here;
	__atomic_add_fetch(sleepers + set, 1, __ATOMIC_SEQ_CST);
	pthread_cleanup_push(leave_kernel, &set);
	is_here = is_ours(set, nanoseconds);
	if (!is_here)
		ready = time ? REAL(epoll_pwait2)(set, events, most, time, signals) : REAL(epoll_pwait)(set, events, most, milliseconds, signals);
	pthread_cleanup_pop(1);
	/* only the bell: there are files of the device now */
	if (!is_here && !(take_bell(set, events, &ready) && !ready))
		return ready;
	return wait_masked(set, events, most, nanoseconds, signals);
}

/* Returns whether a wait may be for the board at all. */
static int may_be_ours(int set, int most)
{
	return device && most > 0 && set >= 0 && set < DESCRIPTORS;
}

PUBLIC int epoll_wait(int set, struct epoll_event *events, int most, int milliseconds)
{
	if (!may_be_ours(set, most))
		return REAL(epoll_wait)(set, events, most, milliseconds);
	return wait_for_set(set, events, most, milliseconds, NULL, NULL);
}

PUBLIC int epoll_pwait(int set, struct epoll_event *events, int most, int milliseconds, const sigset_t *signals)
{
	if (!may_be_ours(set, most))
		return REAL(epoll_pwait)(set, events, most, milliseconds, signals);
	return wait_for_set(set, events, most, milliseconds, NULL, signals);
}

PUBLIC int epoll_pwait2(int set, struct epoll_event *events, int most, const struct timespec *time, const sigset_t *signals)
{
	if ((time && !clocks_is_time(time)) || !may_be_ours(set, most))
		return REAL(epoll_pwait2)(set, events, most, time, signals);
	return wait_for_set(set, events, most, -1, time, signals);
}

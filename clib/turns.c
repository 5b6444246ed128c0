/*
 * Waits of board time. A client of one thread has nobody to wait for: what it waits for is there, or the time goes on to
 * the wait's end.
 *
 * Of several threads one has its turn: where all others sleep, the time goes on to the earliest end of a wait, and that
 * wait ends; of equal ends the one that began first. Up to then each wait is a real one, in short pieces, so that what a
 * thread does to end the wait of another ends it at once. A thread that runs on and on is waited for until its calls have
 * taken a millisecond more than the wait's end, or for a second of the wall clock.
 *
 * All that can end a wait is in its `struct wait`, where the others see it. A thread whose wait is over, since the board has
 * changed, has something to do, though it still sleeps: no time goes on before it has seen that.
 *
 * The time doesn't go past a moment at which the board sends a signal (events.c): each wait that lets time go on stops there
 * first.
 *
 * A signal of the client is delivered only within a piece of a wait, which it ends. A semaphore and a futex can't be waited for
 * and signals let in by one call of the kernel, so a handler may run just before such a piece or after it. What one thread
 * sends to another is noted, and then ends the wait as well.
 */
#define _GNU_SOURCE
#include "descriptors.h"
#include "device.h"
#include "names.h"
#include "server.h"
#include <errno.h>
#include <poll.h>
#include <pthread.h>
#include <signal.h>
#include <unistd.h>

#define MOST_TURNS 256
/* nanoseconds of the wall clock: of a piece of the first wait, of those behind it, and of one that is paced, and how long a
 * thread may run */
#define SHORTEST_PIECE 10000
#define LONGEST_PIECE 500000
#define PIECE_BEHIND 200000
#define PACED_PIECE 1000000
#define PATIENCE 1000000000
#define HOUR 3600000000000
/* nanoseconds of board time */
#define OVERTIME 1000000
/* what stands for threads that have run for long enough */
#define OVER NEVER

/* A thread's wait, from a time of the client to another, with the mask of signals that it has meanwhile. In a signal's handler
 * it may have another one. `sent` has a bit for each signal that another thread has sent to it. */
struct turn {
	int is_there;
	pid_t thread;
	pthread_t self;
	const struct wait *wait;
	const sigset_t *signals;
	uint64_t start, end, number, began, piece;
	_Atomic uint64_t sent;
};

static struct turn turns[MOST_TURNS];
static uint64_t last_number;
/* when a turn began last, and when the board sends a signal next, as the last look found */
static _Atomic uint64_t last_turn, next_signal = NEVER;
static pthread_mutex_t lock = PTHREAD_MUTEX_INITIALIZER;
static __thread struct quiet outside;

static void enter(void)
{
	quiet_begin(&outside);
	pthread_mutex_lock(&lock);
}

static void leave(void)
{
	pthread_mutex_unlock(&lock);
	quiet_end(&outside);
}

/* Keeps all waits as they are, up to turns_let_go. */
void turns_hold(void)
{
	pthread_mutex_lock(&lock);
}

void turns_let_go(void)
{
	pthread_mutex_unlock(&lock);
}

/* Called in a child made by fork, which has one thread, and none of these waits. */
void turns_begin_child(void)
{
	for (int i = 0; i < MOST_TURNS; i++)
		turns[i].is_there = 0;
}

static struct turn *join(uint64_t end, const struct wait *wait, const sigset_t *signals)
{
	struct turn *turn = NULL;
	uint64_t now = time_of_wall();
	enter();
	for (int i = 0; i < MOST_TURNS && !turn; i++)
		if (!turns[i].is_there)
			turn = turns + i;
	if (turn)
		*turn = (struct turn){ 1, gettid(), pthread_self(), wait, signals, device->client_now, end, ++last_number, now, 0, 0 };
	leave();
	return turn;
}

/* Returns when a wait ends, or something comes by itself. */
static uint64_t own_end_of(const struct turn *turn)
{
	uint64_t due = turn->wait->due ? turn->wait->due(turn->wait->what) : NEVER;
	return due < turn->end ? due : turn->end;
}

/* Returns up to when a wait lets the time go on. A signal of the board may come before the wait's end. */
static uint64_t end_of(const struct turn *turn)
{
	uint64_t end = own_end_of(turn), signal = next_signal;
	return signal < end ? signal : end;
}

/* The number of a thread's last wait, or 0 where it has none. */
uint64_t turns_number(pid_t thread)
{
	uint64_t number = 0;
	enter();
	for (int i = 0; i < MOST_TURNS; i++)
		if (turns[i].is_there && turns[i].thread == thread && turns[i].number > number)
			number = turns[i].number;
	leave();
	return number;
}

/* Returns the number of the last wait of a thread, or 0 if it has none. */
uint64_t turns_number_of(pthread_t thread)
{
	uint64_t number = 0;
	enter();
	for (int i = 0; i < MOST_TURNS; i++)
		if (turns[i].is_there && pthread_equal(turns[i].self, thread) && turns[i].number > number)
			number = turns[i].number;
	leave();
	return number;
}

/* Notes that a signal was sent to a thread, which was in this wait before. */
void turns_note_signal(pthread_t thread, uint64_t number, int signal)
{
	enter();
	for (int i = 0; i < MOST_TURNS; i++)
		if (turns[i].is_there && turns[i].number == number && pthread_equal(turns[i].self, thread))
			turns[i].sent |= 1ull << (signal - 1);
	leave();
}

/* Returns whether a thread waits with a mask that lets a signal in. */
int turns_let_in(pid_t thread, int signal)
{
	int lets_in = 0;
	enter();
	for (int i = 0; i < MOST_TURNS; i++)
		lets_in |= turns[i].is_there && turns[i].thread == thread && turns[i].signals && !sigismember(turns[i].signals, signal);
	leave();
	return lets_in;
}

static int comes_before(const struct turn *one, const struct turn *other)
{
	uint64_t end = end_of(one), end_of_other = end_of(other);
	return end < end_of_other || (end == end_of_other && one->number < other->number);
}

/* Whether the thread has a later wait, in a signal's handler: this one can't end before. */
static int is_under_another(const struct turn *turn)
{
	for (int i = 0; i < MOST_TURNS; i++)
		if (turns[i].is_there && turns[i].thread == turn->thread && turns[i].number > turn->number)
			return 1;
	return 0;
}

/* Returns whether the board has changed since a thread that waits for it has looked. */
static int is_news(const struct wait *wait)
{
	return wait->seen && device_changes() != *wait->seen;
}

/* Returns whether a thread that waits has to look at the board again, or has to run a handler. */
static int have_news(void)
{
	int have = 0;
	enter();
	for (int i = 0; i < MOST_TURNS; i++)
		have |= turns[i].is_there && (is_news(turns[i].wait) || turns[i].sent) && !is_under_another(turns + i);
	leave();
	return have;
}

/* Returns whether another thread has sent signals to this one since its wait began, and one of them ends the wait. Those that
 * the mask keeps out or that have no handler don't. */
static int was_sent_signal(struct turn *turn)
{
	uint64_t ending = 0;
	if (!turn->sent)
		return 0;
	enter();
	for (int i = 1; i < NSIG; i++)
		if (turn->sent >> (i - 1) & 1 && !sigismember(turn->signals, i))
			ending |= 1ull << (i - 1);
	turn->sent = 0;
	leave();
	return ending && !turn->wait->goes_on && signals_are_handled(ending);
}

/* Whether a wait has an end, and the earliest. */
static int is_first(const struct turn *turn)
{
	enter();
	int first = end_of(turn) != NEVER;
	for (int i = 0; i < MOST_TURNS; i++)
		if (turns[i].is_there && comes_before(turns + i, turn) && !is_under_another(turns + i))
			first = 0;
	leave();
	return first;
}

/* Whether the threads that run have run for long enough. */
static int is_over(const struct turn *turn)
{
	uint64_t turn_began = last_turn, since = turn_began > turn->began ? turn_began : turn->began;
	return device->client_now > end_of(turn) + OVERTIME || time_of_wall() > since + PATIENCE;
}

static void go_on(uint64_t end)
{
	device_enter();
	uint64_t now = device->client_now;
	if (end > now)
		record_sleep(end - now);
	time_to(end);
	device_leave();
}

/* Lets the time go on to the end of a wait, or to a signal of the board before it. Returns whether signals were sent. */
static int take_turn(const struct turn *turn)
{
	go_on(end_of(turn));
	last_turn = time_of_wall();
	return events_tell();
}

/* Whether a wait has its turn, but for what may have come before the others slept. Answers as threads_sleep. The first one
 * looks again soon, and later more seldom. */
static uint64_t has_turn(struct turn *turn)
{
	next_signal = events_next();
	if (!is_first(turn)) {
		turn->piece = 0;
		return 0;
	}
	turn->piece = !turn->piece ? SHORTEST_PIECE : 2 * turn->piece < LONGEST_PIECE ? 2 * turn->piece : LONGEST_PIECE;
	uint64_t sleep = is_over(turn) ? OVER : threads_sleep();
	return have_news() ? 0 : sleep;
}

/* One piece of a wait. */
static int pause_once(const struct wait *wait, uint64_t nanoseconds, const sigset_t *signals)
{
	return is_news(wait) ? BOARD_CHANGED : wait->pause(wait->what, nanoseconds, signals);
}

/* Waits for one piece of a wait that has a turn. Returns as the wait's `pause`, and -EINTR after a signal of another thread. */
static int pause_in_turn(struct turn *turn, uint64_t nanoseconds)
{
	static const struct timespec no_time;
	int result = pause_once(turn->wait, nanoseconds, turn->signals);
	if (result || !was_sent_signal(turn))
		return result;
	/* its handler has run, or runs now */
	REAL(ppoll)(NULL, 0, &no_time, turn->signals);
	return -EINTR;
}

/* Real waits, until what is waited for is there or the wait has its turn: the others sleep, what is waited for isn't there,
 * and none of them has run meanwhile. A signal that comes at the very end of a wait ends it, too. */
static int wait_in_pieces(struct turn *turn)
{
	uint64_t before = 0, sleep = 0;
	int result = pause_in_turn(turn, 0);
	while (!result && own_end_of(turn) > turn->start) {
		sleep = has_turn(turn);
		if (sleep && sleep == before && is_first(turn)) {
			result = take_turn(turn) ? pause_in_turn(turn, 0) : 0;
			if (own_end_of(turn) <= device->client_now)
				break;
			before = turn->piece = 0;
			continue;
		}
		before = sleep;
		result = pause_in_turn(turn, sleep ? 0 : turn->piece ? turn->piece : PIECE_BEHIND);
	}
	return result;
}

/* A wait that nothing in the board's time ends. */
static int wait_for_ever(const struct wait *wait, const sigset_t *signals)
{
	int result = 0;
	while (!result)
		result = wait->pause(wait->what, HOUR, signals);
	return result;
}

/* A wait with a pace: the board's time is the wall clock's. */
static int wait_paced(struct turn *turn)
{
	uint64_t left = 1;
	int result = pause_in_turn(turn, 0);
	while (!result && left) {
		left = time_left(turn->end);
		if (events_next() != NEVER)
			events_tell();
		result = pause_in_turn(turn, left < PACED_PIECE ? left : PACED_PIECE);
	}
	return result;
}

/* What a thread has while it waits, and gives back if it's cancelled: a turn, and its own mask of signals. */
struct waiting {
	struct turn *turn;
	sigset_t signals;
};

static void stop_waiting(void *what)
{
	const struct waiting *waiting = what;
	enter();
	if (waiting->turn)
		waiting->turn->is_there = 0;
	leave();
	pthread_sigmask(SIG_SETMASK, &waiting->signals, NULL);
}

static int wait_really(uint64_t end, const struct wait *wait, struct waiting *waiting)
{
	const sigset_t *signals = wait->signals ? wait->signals : &waiting->signals;
	if (device->pace <= 0 && end == NEVER && !wait->due && !wait->seen && !descriptors_asynchronous())
		return wait_for_ever(wait, signals);
	waiting->turn = join(end, wait, signals);
	if (!waiting->turn)
		return pause_once(wait, time_until(end), signals);
	return device->pace > 0 ? wait_paced(waiting->turn) : wait_in_pieces(waiting->turn);
}

/* A wait among several threads. It is known before the thread sleeps at all. If the thread is cancelled, it has no turn any
 * more. */
static int wait_among_others(uint64_t end, const struct wait *wait)
{
	struct waiting waiting = { 0 };
	sigset_t all;
	int result;
	sigfillset(&all);
	pthread_sigmask(SIG_SETMASK, &all, &waiting.signals);
	pthread_cleanup_push(stop_waiting, &waiting);
	result = wait_really(end, wait, &waiting);
	pthread_cleanup_pop(1);
	return result;
}

/* A wait of the only thread. */
static int wait_alone(uint64_t end, const struct wait *wait)
{
	int result = wait->pause(wait->what, 0, wait->signals);
	uint64_t due = wait->due ? wait->due(wait->what) : NEVER;
	end = due < end ? due : end;
	while (!result && end == NEVER)
		result = wait->pause(wait->what, HOUR, wait->signals);
	if (!result)
		go_on(end);
	return result;
}

/* where the C library says whether the process has one thread; those before 2.32 don't */
static const char *single_threaded;

__attribute__((constructor)) static void find_single_threaded(void)
{
	single_threaded = dlsym(RTLD_DEFAULT, "__libc_single_threaded");
	dlerror();
}

int turns_is_only_thread(void)
{
	return single_threaded ? *(const volatile char *)single_threaded : threads_number() == 1;
}

/* Returns whether nothing can come between the start of a wait and its end: there is one thread, and the board sends it no
 * signal. */
int turns_is_alone(void)
{
	return turns_is_only_thread() && !descriptors_asynchronous();
}

/* Waits up to a time of the client, or for ever. Returns 0 when the time has come, or what has ended the wait before. */
int turns_wait(uint64_t end, const struct wait *wait)
{
	return device->pace <= 0 && turns_is_alone() ? wait_alone(end, wait) : wait_among_others(end, wait);
}

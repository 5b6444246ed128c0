/*
 * The names that wait for a signal, and what signals are to a wait. Those that the board sends by itself (events.c) come while
 * a client pauses, too: the time goes on to them.
 */
#define _GNU_SOURCE
#include "clocks.h"
#include "descriptors.h"
#include "device.h"
#include "names.h"
#include "server.h"
#include <errno.h>
#include <fcntl.h>
#include <signal.h>
#include <unistd.h>

/* A sleep of the client up to a time. Answers what is left of it where a signal ended it. */
int64_t signals_sleep_until(uint64_t end)
{
	if (!turns_wait(end, &time_sleep))
		return 0;
	uint64_t left = time_until(end);
	return left ? left : 1;
}

/* A sleep in board time, or SLEEP_IS_REAL. */
int64_t signals_sleep(uint64_t nanoseconds)
{
	return time_is_board_time() ? signals_sleep_until(device->client_now + nanoseconds) : SLEEP_IS_REAL;
}

/* Returns whether a read or a write that a signal has ended goes on (SA_RESTART). The kernel doesn't say which handler has
 * run, so it goes on if all handlers of the client want that. */
int signals_restart(void)
{
	struct sigaction action;
	for (int i = 1; i < NSIG; i++)
		if (!sigaction(i, NULL, &action) && action.sa_handler != SIG_IGN && action.sa_handler != SIG_DFL && !(action.sa_flags & SA_RESTART))
			return 0;
	return 1;
}

static int has_handler(int number)
{
	struct sigaction action;
	return !sigaction(number, NULL, &action) && action.sa_handler != SIG_IGN && action.sa_handler != SIG_DFL;
}

/* Returns whether one of these signals, a bit for each, has a handler. */
int signals_are_handled(uint64_t numbers)
{
	for (int i = 1; i < NSIG; i++)
		if (numbers >> (i - 1) & 1 && has_handler(i))
			return 1;
	return 0;
}

/* Returns whether a signal waits that a mask lets in and that has a handler. */
static int is_waiting(const sigset_t *mask)
{
	sigset_t waiting;
	int is = 0;
	sigpending(&waiting);
	for (int i = 1; i < NSIG && !is; i++)
		is = sigismember(&waiting, i) == 1 && !sigismember(mask, i) && has_handler(i);
	return is;
}

/* Blocks all signals for a wait with a mask, unless one is pending that the mask unblocks: that one is delivered. Returns
 * whether one was. */
int signals_exchange(const sigset_t *mask, sigset_t *old)
{
	sigset_t all;
	sigfillset(&all);
	pthread_sigmask(SIG_SETMASK, &all, old);
	if (!is_waiting(mask))
		return 0;
	pthread_sigmask(SIG_SETMASK, mask, NULL);
	pthread_sigmask(SIG_SETMASK, old, NULL);
	return 1;
}

/* Lets the client's signals in for a piece of a wait that takes no mask. Returns whether one was waiting, which ends such a
 * wait: its handler has run. Without a mask none was blocked. */
int signals_let_in(const sigset_t *mask)
{
	int was_waiting = mask && is_waiting(mask);
	if (mask)
		pthread_sigmask(SIG_SETMASK, mask, NULL);
	return was_waiting;
}

/* Blocks all signals again, at the end of such a piece. */
void signals_keep_out(const sigset_t *mask)
{
	sigset_t all;
	sigfillset(&all);
	if (mask)
		pthread_sigmask(SIG_SETMASK, &all, NULL);
}

/* Returns whether a wait for a signal lets the time go on to those that the board sends. */
static int is_for_board(void)
{
	if (!time_is_board_time() || !descriptors_asynchronous())
		return 0;
	if (!turns_is_only_thread() || events_next() != NEVER)
		return 1;
	message("a wait for a signal, and no sample comes any more");
	return 0;
}

static void wait_for_signal(const sigset_t *mask)
{
	struct wait wait = time_sleep;
	wait.signals = mask;
	turns_wait(NEVER, &wait);
}

PUBLIC int pause(void)
{
	if (!is_for_board())
		return REAL(pause)();
	wait_for_signal(NULL);
	return names_answer(-EINTR);
}

PUBLIC int sigsuspend(const sigset_t *mask)
{
	sigset_t old;
	if (!time_is_board_time() || !descriptors_asynchronous())
		return REAL(sigsuspend)(mask);
	if (signals_exchange(mask, &old))
		return names_answer(-EINTR);
	int is_ours = is_for_board();
	if (is_ours)
		wait_for_signal(mask);
	pthread_sigmask(SIG_SETMASK, &old, NULL);
	return is_ours ? names_answer(-EINTR) : REAL(sigsuspend)(mask);
}

struct wanted {
	const sigset_t *set;
	siginfo_t *information;
};

static int pause_signal(void *what, uint64_t nanoseconds, const sigset_t *signals)
{
	struct wanted *w = what;
	struct timespec time = clocks_time(nanoseconds);
	int number = REAL(sigtimedwait)(w->set, w->information, &(struct timespec){ 0, 0 }), error = EINTR;
	if (number < 0 && !signals_let_in(signals)) {
		number = REAL(sigtimedwait)(w->set, w->information, &time);
		error = errno;
	}
	signals_keep_out(signals);
	return number >= 0 ? number : error == EAGAIN ? 0 : -error;
}

/* Waits for a signal of a set, which the client blocks. Returns its number, or a negative error number. */
static int take_signal(const sigset_t *set, siginfo_t *information, uint64_t end)
{
	struct wanted w = { set, information };
	int result = turns_wait(end, &(struct wait){ .pause = pause_signal, .what = &w });
	return result ? result : -EAGAIN;
}

PUBLIC int sigtimedwait(const sigset_t *restrict set, siginfo_t *restrict information, const struct timespec *restrict time)
{
	if (!time_is_shown() || !clocks_is_time(time))
		return REAL(sigtimedwait)(set, information, time);
	return names_answer(take_signal(set, information, time_after(clocks_nanoseconds(time))));
}

PUBLIC int sigwaitinfo(const sigset_t *restrict set, siginfo_t *restrict information)
{
	return is_for_board() ? names_answer(take_signal(set, information, NEVER)) : REAL(sigwaitinfo)(set, information);
}

/* This name answers its error itself, and other signals don't end it. */
PUBLIC int sigwait(const sigset_t *restrict set, int *restrict number)
{
	int result = -EINTR;
	while (result == -EINTR && is_for_board())
		result = take_signal(set, NULL, NEVER);
	if (result == -EINTR)
		return REAL(sigwait)(set, number);
	if (result > 0)
		*number = result;
	return result > 0 ? 0 : -result;
}

/* Sends a signal to a thread. If that one waits, it's noted, since the handler may run between two pieces of the wait. */
static int send_noted(pthread_t thread, int number, int (*send)(pthread_t thread, int number, const union sigval *value), const union sigval *value)
{
	uint64_t turn = device && number > 0 && number < NSIG ? turns_number_of(thread) : 0;
	int error = send(thread, number, value);
	if (!error && turn)
		turns_note_signal(thread, turn, number);
	return error;
}

static int send_plainly(pthread_t thread, int number, const union sigval *value)
{
	(void)value;
	return REAL(pthread_kill)(thread, number);
}

static int send_with_value(pthread_t thread, int number, const union sigval *value)
{
	return REAL(pthread_sigqueue)(thread, number, *value);
}

PUBLIC int pthread_kill(pthread_t thread, int number)
{
	return send_noted(thread, number, send_plainly, NULL);
}

PUBLIC int pthread_sigqueue(pthread_t thread, int number, const union sigval value)
{
	return send_noted(thread, number, send_with_value, &value);
}

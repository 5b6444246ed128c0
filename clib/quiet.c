/*
 * Parts of a call that nothing interrupts. No handler of a signal runs meanwhile, since it may call the device too. A
 * cancellation of the thread waits for the end of the part: in the middle it would leave a lock held, or an answer half
 * read.
 *
 * To block all signals and let them in again takes two system calls. A call of the device leaves them out as long as the
 * client has no handler (handlers.c). A signal can end or stop the client then, and nothing else. As soon as it makes a child,
 * which has the same board and must not lose it, calls block signals, too.
 */
#define _GNU_SOURCE
#include "device.h"
#include <pthread.h>
#include <signal.h>
#include <sys/syscall.h>
#include <time.h>
#include <unistd.h>

/* nanoseconds of the wall clock */
#define PIECE_OF_A_WAIT 50000

/* how many calls let signals in now; whether none does any more; and whether the last one that did is over */
static int open_calls, are_blocked, are_over;

static int is_set(const int *place)
{
	return __atomic_load_n(place, __ATOMIC_SEQ_CST);
}

void quiet_begin(struct quiet *quiet)
{
	sigset_t all;
	sigfillset(&all);
	pthread_setcancelstate(PTHREAD_CANCEL_DISABLE, &quiet->cancels);
	pthread_sigmask(SIG_SETMASK, &all, &quiet->signals);
}

void quiet_end(const struct quiet *quiet)
{
	pthread_sigmask(SIG_SETMASK, &quiet->signals, NULL);
	pthread_setcancelstate(quiet->cancels, NULL);
}

/* Begins a call of the device, in which signals are blocked if a handler may run. */
void quiet_begin_call(struct quiet *quiet)
{
	quiet->lets_signals_in = 0;
	if (!is_set(&are_blocked)) {
		pthread_setcancelstate(PTHREAD_CANCEL_DISABLE, &quiet->cancels);
		__atomic_add_fetch(&open_calls, 1, __ATOMIC_SEQ_CST);
		quiet->lets_signals_in = !is_set(&are_blocked);
		if (quiet->lets_signals_in)
			return;
		__atomic_sub_fetch(&open_calls, 1, __ATOMIC_SEQ_CST);
		pthread_setcancelstate(quiet->cancels, NULL);
	}
	quiet_begin(quiet);
}

void quiet_end_call(const struct quiet *quiet)
{
	if (!quiet->lets_signals_in) {
		quiet_end(quiet);
		return;
	}
	__atomic_sub_fetch(&open_calls, 1, __ATOMIC_SEQ_CST);
	pthread_setcancelstate(quiet->cancels, NULL);
}

/* Makes all calls block signals from now on. Waits for the end of those that let them in. A handler may call this: then they
 * are over already. */
void quiet_block_signals(void)
{
	const struct timespec piece = { 0, PIECE_OF_A_WAIT };
	__atomic_store_n(&are_blocked, 1, __ATOMIC_SEQ_CST);
	while (!is_set(&are_over) && is_set(&open_calls))
		syscall(SYS_nanosleep, &piece, NULL);
	__atomic_store_n(&are_over, 1, __ATOMIC_SEQ_CST);
}

/* Called in a child made by fork, which has none of the other threads. */
void quiet_begin_child(void)
{
	__atomic_store_n(&open_calls, 0, __ATOMIC_SEQ_CST);
}

/* Names of the C library that stand before its own. */
#ifndef NAMES_H
#define NAMES_H

#include "device.h"
#include <dlfcn.h>
#include <poll.h>
#include <signal.h>
#include <stdint.h>

#define PUBLIC __attribute__((visibility("default")))

/* the library's own function of this name */
#define REAL(name) \
	({ \
		static __typeof__(&name) found; \
		__typeof__(&name) real = __atomic_load_n(&found, __ATOMIC_RELAXED); \
		if (!real) { \
			real = (__typeof__(&name))names_find(#name); \
			__atomic_store_n(&found, real, __ATOMIC_RELAXED); \
		} \
		real; \
	})

/* what signals_sleep answers where a sleep isn't one of board time */
#define SLEEP_IS_REAL (-1)
/* what ends a wait early is there */
#define CAME 1

/* finding.c: the next function of a name, after this library's */
void *names_find(const char *name);

/* names.c: a descriptor's file of the session, and the answer of a call */
int names_file(int descriptor);
long names_answer(long result);

/* openings.c: a number that the system has just given */
int openings_fresh(int descriptor);

/* polls.c */
int polls_wait(struct pollfd *asked, nfds_t count, int64_t nanoseconds);
int polls_wait_for_set(int set, unsigned changes, struct pollfd *asked, nfds_t count, int64_t nanoseconds, const sigset_t *signals);
void polls_restore_signals(void *signals);

/* sets.c: a poll that isn't one of a set's members, and what is asked of a set */
#define NO_SET (-1)
unsigned sets_changes(void);
int sets_have_edges(int set, int descriptor);
int sets_have_news(int set, int descriptor, int file);

/* events.c */
uint64_t events_next(void);
int events_tell(void);

/* signals.c */
int signals_are_handled(uint64_t numbers);
int64_t signals_sleep_until(uint64_t end);
int64_t signals_sleep(uint64_t nanoseconds);
int signals_exchange(const sigset_t *mask, sigset_t *old);
int signals_restart(void);
int signals_let_in(const sigset_t *mask);
void signals_keep_out(const sigset_t *mask);

/* timers.c */
int timers_are_in(int descriptor);
uint64_t timers_next(int descriptor);
void timers_ring(void);
void timers_put(int descriptor, int set);
int timers_are_read(int descriptor);
ssize_t timers_read(int descriptor, void *to, size_t bytes);

#endif

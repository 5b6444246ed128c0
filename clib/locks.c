/*
 * The C library's names that wait for a semaphore, a condition variable, a lock or a thread's end, up to a time of a clock.
 * Where the clocks are the client's, so are these waits.
 */
#define _GNU_SOURCE
#include "clocks.h"
#include "device.h"
#include "names.h"
#include <dlfcn.h>
#include <errno.h>
#include <link.h>
#include <pthread.h>
#include <semaphore.h>
#include <threads.h>

/* where Python's state is, and in it the lock of its interpreter */
static const char *python, *python_end;

__attribute__((constructor)) static void find_python(void)
{
	Dl_info found;
	const ElfW(Sym) *symbol;
	python = dlsym(RTLD_DEFAULT, "_PyRuntime");
	if (python && dladdr1(python, &found, (void **)&symbol, RTLD_DL_SYMENT) && symbol)
		python_end = python + symbol->st_size;
	dlerror();
}

static int pause_semaphore(void *what, uint64_t nanoseconds, const sigset_t *signals)
{
	struct timespec end = clocks_of_wall(nanoseconds);
	int error = EINTR;
	if (!signals_let_in(signals))
		error = REAL(sem_clockwait)(what, CLOCK_MONOTONIC, &end) ? errno : 0;
	signals_keep_out(signals);
	return !error ? CAME : error == ETIMEDOUT ? 0 : -error;
}

static int wait_for_semaphore(sem_t *semaphore, uint64_t end)
{
	int result = turns_wait(end, &(struct wait){ .pause = pause_semaphore, .what = semaphore });
	return result == CAME ? 0 : names_answer(result ? result : -ETIMEDOUT);
}

PUBLIC int sem_clockwait(sem_t *restrict semaphore, clockid_t clock, const struct timespec *restrict time)
{
	if (!clocks_rule(clock, time))
		return REAL(sem_clockwait)(semaphore, clock, time);
	return wait_for_semaphore(semaphore, clocks_end(clock, time));
}

PUBLIC int sem_timedwait(sem_t *restrict semaphore, const struct timespec *restrict time)
{
	if (!clocks_rule(CLOCK_REALTIME, time))
		return REAL(sem_timedwait)(semaphore, time);
	return wait_for_semaphore(semaphore, clocks_end(CLOCK_REALTIME, time));
}

/* How often the condition variables of an address were signalled: between two pieces of a wait nobody would see it. */
static _Atomic unsigned signalled[256];

static _Atomic unsigned *signals_of(const pthread_cond_t *condition)
{
	return signalled + (uintptr_t)condition / sizeof *condition % 256;
}

PUBLIC int pthread_cond_signal(pthread_cond_t *condition)
{
	++*signals_of(condition);
	return REAL(pthread_cond_signal)(condition);
}

PUBLIC int pthread_cond_broadcast(pthread_cond_t *condition)
{
	++*signals_of(condition);
	return REAL(pthread_cond_broadcast)(condition);
}

struct condition {
	pthread_cond_t *variable;
	pthread_mutex_t *mutex;
	unsigned signals;
};

/* A wait that may have missed a signal ends too, as such waits may. */
static int pause_condition(void *what, uint64_t nanoseconds, const sigset_t *signals)
{
	struct condition *c = what;
	struct timespec end = clocks_of_wall(nanoseconds);
	signals_let_in(signals);
	int result = REAL(pthread_cond_clockwait)(c->variable, c->mutex, CLOCK_MONOTONIC, &end);
	signals_keep_out(signals);
	if (result == ETIMEDOUT && *signals_of(c->variable) == c->signals)
		return 0;
	return result && result != ETIMEDOUT ? -result : CAME;
}

/* Who waits for Python's interpreter has something to do: that is a real wait, and takes no board time. Python has just
 * looked at a clock for it. */
static int wait_for_python(struct condition *c, uint64_t end)
{
	struct timespec time = clocks_of_wall(time_until(end));
	time_forget_look();
	return REAL(pthread_cond_clockwait)(c->variable, c->mutex, CLOCK_MONOTONIC, &time);
}

static int wait_for_condition(pthread_cond_t *variable, pthread_mutex_t *mutex, uint64_t end)
{
	struct condition c = { variable, mutex, *signals_of(variable) };
	if ((const char *)variable >= python && (const char *)variable < python_end)
		return wait_for_python(&c, end);
	int result = turns_wait(end, &(struct wait){ .pause = pause_condition, .what = &c, .goes_on = 1 });
	return result == CAME ? 0 : result ? -result : ETIMEDOUT;
}

PUBLIC int pthread_cond_clockwait(pthread_cond_t *restrict variable, pthread_mutex_t *restrict mutex, clockid_t clock,
	const struct timespec *restrict time)
{
	if (!clocks_rule(clock, time))
		return REAL(pthread_cond_clockwait)(variable, mutex, clock, time);
	return wait_for_condition(variable, mutex, clocks_end(clock, time));
}

PUBLIC int pthread_cond_timedwait(pthread_cond_t *restrict variable, pthread_mutex_t *restrict mutex,
	const struct timespec *restrict time)
{
	if (!clocks_rule(CLOCK_REALTIME, time))
		return REAL(pthread_cond_timedwait)(variable, mutex, time);
	return wait_for_condition(variable, mutex, clocks_end(clocks_guess(time), time));
}

/* A lock, the real wait for it up to a time of a clock, and what that answered. */
struct lock {
	void *lock;
	int (*real)(void *lock, clockid_t clock, const struct timespec *time);
	int result;
};

static int pause_lock(void *what, uint64_t nanoseconds, const sigset_t *signals)
{
	struct lock *l = what;
	struct timespec end = clocks_of_wall(nanoseconds);
	signals_let_in(signals);
	l->result = l->real(l->lock, CLOCK_MONOTONIC, &end);
	signals_keep_out(signals);
	return l->result == ETIMEDOUT ? 0 : CAME;
}

/* A wait for a lock. These names answer their error themselves. */
static int wait_for_lock(struct lock l, clockid_t clock, const struct timespec *time)
{
	if (!clocks_rule(clock, time))
		return l.real(l.lock, clock, time);
	turns_wait(clocks_end(clock, time), &(struct wait){ .pause = pause_lock, .what = &l, .goes_on = 1 });
	return l.result;
}

#define LOCK(kind, clocked, timed) \
	static int real_##clocked(void *lock, clockid_t clock, const struct timespec *time) \
	{ \
		return REAL(clocked)(lock, clock, time); \
	} \
	PUBLIC int clocked(kind *restrict lock, clockid_t clock, const struct timespec *restrict time) \
	{ \
		return wait_for_lock((struct lock){ lock, real_##clocked, 0 }, clock, time); \
	} \
	PUBLIC int timed(kind *restrict lock, const struct timespec *restrict time) \
	{ \
		return clocked(lock, CLOCK_REALTIME, time); \
	}

LOCK(pthread_mutex_t, pthread_mutex_clocklock, pthread_mutex_timedlock)
LOCK(pthread_rwlock_t, pthread_rwlock_clockrdlock, pthread_rwlock_timedrdlock)
LOCK(pthread_rwlock_t, pthread_rwlock_clockwrlock, pthread_rwlock_timedwrlock)

/* A thread that is waited for, and where its answer goes. */
struct ended {
	pthread_t thread;
	void **answer;
};

static int real_join(void *what, clockid_t clock, const struct timespec *time)
{
	const struct ended *e = what;
	return REAL(pthread_clockjoin_np)(e->thread, e->answer, clock, time);
}

PUBLIC int pthread_clockjoin_np(pthread_t thread, void **answer, clockid_t clock, const struct timespec *time)
{
	struct ended e = { thread, answer };
	return wait_for_lock((struct lock){ &e, real_join, 0 }, clock, time);
}

PUBLIC int pthread_timedjoin_np(pthread_t thread, void **answer, const struct timespec *time)
{
	return pthread_clockjoin_np(thread, answer, CLOCK_REALTIME, time);
}

/* The same of C's own threads, which the C library answers past these names. */
static int of_threads(int error)
{
	return !error ? thrd_success : error == ETIMEDOUT ? thrd_timedout : error == EBUSY ? thrd_busy : thrd_error;
}

PUBLIC int cnd_signal(cnd_t *condition)
{
	return of_threads(pthread_cond_signal((pthread_cond_t *)condition));
}

PUBLIC int cnd_broadcast(cnd_t *condition)
{
	return of_threads(pthread_cond_broadcast((pthread_cond_t *)condition));
}

PUBLIC int cnd_timedwait(cnd_t *restrict condition, mtx_t *restrict mutex, const struct timespec *restrict time)
{
	return of_threads(pthread_cond_timedwait((pthread_cond_t *)condition, (pthread_mutex_t *)mutex, time));
}

PUBLIC int mtx_timedlock(mtx_t *restrict mutex, const struct timespec *restrict time)
{
	return of_threads(pthread_mutex_timedlock((pthread_mutex_t *)mutex, time));
}

PUBLIC int thrd_sleep(const struct timespec *time, struct timespec *left)
{
	int error = clock_nanosleep(CLOCK_REALTIME, 0, time, left);
	return !error ? 0 : error == EINTR ? -1 : -2;
}

/*
 * The clocks, and waits for what isn't the board's, of a client of one thread. On wide.board channel 0 has the code
 * of the milliseconds, up to 254 and again from 0. The client starts its waits half a millisecond after
 * one, so that its few calls don't reach the next: what it reports is how many milliseconds went by up to there.
 *
 * Each wait takes 10 ms, unless what it waits for is there: then it takes none. A look at a clock after another one takes
 * 1,000 ns, so a loop of 10 ms has 10,000 looks after its first.
 */
#define _GNU_SOURCE
#include "client.h"
#include <linux/futex.h>
#include <poll.h>
#include <pthread.h>
#include <semaphore.h>
#include <signal.h>
#include <sys/epoll.h>
#include <sys/select.h>
#include <sys/syscall.h>
#include <sys/time.h>
#include <threads.h>
#include <time.h>

static comedi_t *device;
static int ends[2];

/* Reports a call's result, and the milliseconds of the board's time. */
static void report_at(const char *what, long result)
{
	lsampl_t code = 0;
	int error = errno;
	comedi_data_read(device, 0, 0, 0, AREF_GROUND, &code);
	errno = error;
	printf("%3u ms  ", code);
	report(what, result);
}

/* What a call answers that has no errno. */
static long answered(int result)
{
	errno = result;
	return result ? -1 : 0;
}

static struct timespec in_10_ms(clockid_t clock)
{
	struct timespec time;
	clock_gettime(clock, &time);
	time.tv_nsec += 10 * MILLISECOND;
	time.tv_sec += time.tv_nsec / 1000000000;
	time.tv_nsec %= 1000000000;
	return time;
}

static void wait_for_files(void)
{
	const struct timespec time = { 0, 10 * MILLISECOND };
	struct pollfd asked = { ends[0], POLLIN, 0 };
	struct timeval left = { 0, 10000 };
	struct epoll_event event = { .events = EPOLLIN };
	int set = epoll_create1(0);
	sigset_t none;
	fd_set reads;
	sigemptyset(&none);
	FD_ZERO(&reads);
	FD_SET(ends[0], &reads);
	epoll_ctl(set, EPOLL_CTL_ADD, ends[0], &event);
	report_at("poll", poll(&asked, 1, 10));
	report_at("poll of no time", poll(&asked, 1, 0));
	report_at("poll of nothing", poll(NULL, 0, 10));
	report_at("ppoll", ppoll(&asked, 1, &time, &none));
	report_at("select", select(ends[0] + 1, &reads, NULL, NULL, &left));
	report("microseconds left", left.tv_usec);
	FD_SET(ends[0], &reads);
	report_at("pselect", pselect(ends[0] + 1, &reads, NULL, NULL, &time, &none));
	report_at("epoll_wait", epoll_wait(set, &event, 1, 10));
	report_at("epoll_pwait", epoll_pwait(set, &event, 1, 10, &none));
	report_at("epoll_pwait2", epoll_pwait2(set, &event, 1, &time, NULL));
	if (write(ends[1], "x", 1) != 1)
		return;
	report_at("poll, with a byte", poll(&asked, 1, 10));
	left.tv_usec = 10000;
	FD_SET(ends[0], &reads);
	report_at("select, with a byte", select(ends[0] + 1, &reads, NULL, NULL, &left));
	report("microseconds left", left.tv_usec);
	report_at("epoll_wait, with a byte", epoll_wait(set, &event, 1, 10));
	close(set);
}

static void wait_for_locks(void)
{
	sem_t semaphore;
	pthread_mutex_t mutex = PTHREAD_MUTEX_INITIALIZER;
	pthread_cond_t condition = PTHREAD_COND_INITIALIZER, other;
	pthread_condattr_t monotonic;
	struct timespec time;
	sem_init(&semaphore, 0, 0);
	pthread_condattr_init(&monotonic);
	pthread_condattr_setclock(&monotonic, CLOCK_MONOTONIC);
	pthread_cond_init(&other, &monotonic);
	time = in_10_ms(CLOCK_REALTIME);
	report_at("sem_timedwait", sem_timedwait(&semaphore, &time));
	time = in_10_ms(CLOCK_MONOTONIC);
	report_at("sem_clockwait", sem_clockwait(&semaphore, CLOCK_MONOTONIC, &time));
	sem_post(&semaphore);
	time = in_10_ms(CLOCK_REALTIME);
	report_at("sem_timedwait, posted", sem_timedwait(&semaphore, &time));
	pthread_mutex_lock(&mutex);
	time = in_10_ms(CLOCK_REALTIME);
	report_at("pthread_cond_timedwait", answered(pthread_cond_timedwait(&condition, &mutex, &time)));
	time = in_10_ms(CLOCK_MONOTONIC);
	report_at("pthread_cond_timedwait of the other clock", answered(pthread_cond_timedwait(&other, &mutex, &time)));
	time = in_10_ms(CLOCK_MONOTONIC);
	report_at("pthread_cond_clockwait", answered(pthread_cond_clockwait(&condition, &mutex, CLOCK_MONOTONIC, &time)));
	time = in_10_ms(CLOCK_REALTIME);
	report_at("pthread_mutex_timedlock", answered(pthread_mutex_timedlock(&mutex, &time)));
	time = in_10_ms(CLOCK_MONOTONIC);
	report_at("pthread_mutex_clocklock", answered(pthread_mutex_clocklock(&mutex, CLOCK_MONOTONIC, &time)));
	pthread_mutex_unlock(&mutex);
	time = in_10_ms(CLOCK_REALTIME);
	report_at("pthread_mutex_timedlock, free", answered(pthread_mutex_timedlock(&mutex, &time)));
}

/* Waits of C's own threads. */
static void wait_for_c(void)
{
	struct timespec time = { 0, 10 * MILLISECOND };
	cnd_t condition;
	mtx_t mutex;
	cnd_init(&condition);
	mtx_init(&mutex, mtx_timed);
	mtx_lock(&mutex);
	report_at("thrd_sleep", thrd_sleep(&time, NULL));
	time = in_10_ms(CLOCK_REALTIME);
	report_at("cnd_timedwait", cnd_timedwait(&condition, &mutex, &time) == thrd_timedout ? 0 : -1);
	time = in_10_ms(CLOCK_REALTIME);
	report_at("mtx_timedlock", mtx_timedlock(&mutex, &time) == thrd_timedout ? 0 : -1);
}

static void wait_for_others(void)
{
	pthread_rwlock_t lock = PTHREAD_RWLOCK_INITIALIZER;
	struct timespec time = { 0, 10 * MILLISECOND };
	int word = 1;
	report_at("a futex", syscall(SYS_futex, &word, FUTEX_WAIT_PRIVATE, 1, &time));
	report_at("a futex of another value", syscall(SYS_futex, &word, FUTEX_WAIT_PRIVATE, 2, &time));
	time = in_10_ms(CLOCK_MONOTONIC);
	report_at("a futex up to a time", syscall(SYS_futex, &word, FUTEX_WAIT_BITSET, 1, &time, NULL, FUTEX_BITSET_MATCH_ANY));
	pthread_rwlock_rdlock(&lock);
	time = in_10_ms(CLOCK_REALTIME);
	report_at("pthread_rwlock_timedwrlock", answered(pthread_rwlock_timedwrlock(&lock, &time)));
	time = in_10_ms(CLOCK_MONOTONIC);
	report_at("pthread_rwlock_clockwrlock", answered(pthread_rwlock_clockwrlock(&lock, CLOCK_MONOTONIC, &time)));
	report_at("pthread_rwlock_timedrdlock, free", answered(pthread_rwlock_timedrdlock(&lock, &time)));
	wait_for_c();
}

static void wait_for_signals(void)
{
	const struct timespec time = { 0, 10 * MILLISECOND };
	sigset_t user;
	sigemptyset(&user);
	sigaddset(&user, SIGUSR1);
	sigprocmask(SIG_BLOCK, &user, NULL);
	report_at("sigtimedwait", sigtimedwait(&user, NULL, &time));
	raise(SIGUSR1);
	report_at("sigtimedwait, sent", sigtimedwait(&user, NULL, &time) == SIGUSR1 ? 0 : -1);
}

static long nanoseconds(clockid_t clock)
{
	struct timespec time;
	clock_gettime(clock, &time);
	return time.tv_sec * 1000000000 + time.tv_nsec;
}

static struct timeval *volatile nothing;

static void look_at_clocks(void)
{
	static const clockid_t clocks[] = { CLOCK_REALTIME, CLOCK_MONOTONIC, CLOCK_MONOTONIC_RAW, CLOCK_BOOTTIME, CLOCK_TAI };
	struct timespec end_of_sleep;
	struct timeval now;
	for (size_t i = 0; i < sizeof clocks / sizeof *clocks; i++) {
		long start = nanoseconds(clocks[i]);
		usleep(10000);
		report("nanoseconds of a sleep of 10 ms", nanoseconds(clocks[i]) - start);
	}
	end_of_sleep = in_10_ms(CLOCK_MONOTONIC);
	report_at("clock_nanosleep", answered(clock_nanosleep(CLOCK_MONOTONIC, TIMER_ABSTIME, &end_of_sleep, NULL)));
	long end = nanoseconds(CLOCK_MONOTONIC) + 10 * MILLISECOND, looks = 0;
	while (nanoseconds(CLOCK_MONOTONIC) < end)
		looks++;
	report_at("looks of 10 ms but the last", looks);
	long start = nanoseconds(CLOCK_REALTIME) / 1000;
	gettimeofday(&now, NULL);
	report("microseconds between two clocks", now.tv_sec * 1000000 + now.tv_usec - start);
	report("seconds between two clocks", time(NULL) - now.tv_sec);
	struct timezone zone = { 77, 77 };
	report("gettimeofday of a zone alone", gettimeofday(nothing, &zone));
	printf("the zone: %s\n", zone.tz_minuteswest == 77 ? "none" : "one");
}

int main(void)
{
	device = open_board();
	if (pipe(ends))
		return 1;
	usleep(500);
	wait_for_files();
	wait_for_locks();
	wait_for_others();
	wait_for_signals();
	look_at_clocks();
	comedi_close(device);
	long start = nanoseconds(CLOCK_MONOTONIC);
	usleep(10000);
	report("nanoseconds of a sleep after the close", nanoseconds(CLOCK_MONOTONIC) - start);
	return 0;
}

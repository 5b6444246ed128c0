/*
 * Waits of several threads. Where all others wait, the wait with the earliest end ends, and of equal ends the one that
 * began first. What a thread does to end the wait of another ends it at once. Computing takes no time, and only a thread
 * that never waits is overtaken. Times are those of the client's clock, in microseconds from the start.
 */
#define _GNU_SOURCE
#include "client.h"
#include <poll.h>
#include <pthread.h>
#include <semaphore.h>
#include <sys/epoll.h>
#include <sys/syscall.h>
#include <sys/timerfd.h>
#include <time.h>

static comedi_t *device;
static long start;
static pthread_t beside;
static pthread_mutex_t mutex = PTHREAD_MUTEX_INITIALIZER;
static pthread_cond_t condition = PTHREAD_COND_INITIALIZER;
static sem_t semaphore;
static int ends[2], timer, set;
static volatile int is_over;

static long nanoseconds(void)
{
	struct timespec time;
	clock_gettime(CLOCK_MONOTONIC, &time);
	return time.tv_sec * 1000000000 + time.tv_nsec;
}

static void report_now(const char *what)
{
	printf("%6ld us  %s\n", (nanoseconds() - start) / 1000, what);
}

static struct timespec in_100_ms(void)
{
	struct timespec time;
	clock_gettime(CLOCK_REALTIME, &time);
	time.tv_nsec += 100 * MILLISECOND;
	time.tv_sec += time.tv_nsec / 1000000000;
	time.tv_nsec %= 1000000000;
	return time;
}

/* Milliseconds of the wall clock in which a thread computes. */
static void compute(long milliseconds)
{
	struct timespec from, now;
	syscall(SYS_clock_gettime, CLOCK_MONOTONIC, &from);
	do
		syscall(SYS_clock_gettime, CLOCK_MONOTONIC, &now);
	while ((now.tv_sec - from.tv_sec) * 1000 + (now.tv_nsec - from.tv_nsec) / MILLISECOND < milliseconds);
}

static void *sleep_thrice(void *argument)
{
	for (int i = 0; i < 3; i++) {
		usleep(10000);
		report_now("10 ms more");
	}
	return argument;
}

static void sleep_twice(void)
{
	usleep(14000);
	report_now("14 ms more");
	usleep(15000);
	report_now("15 ms more");
}

static void sleep_shorter(void)
{
	for (int i = 0; i < 3; i++) {
		usleep(2500);
		report_now("2.5 ms more");
	}
}

static void *wait_for_condition(void *argument)
{
	struct timespec time = in_100_ms();
	pthread_mutex_lock(&mutex);
	int result = pthread_cond_timedwait(&condition, &mutex, &time);
	pthread_mutex_unlock(&mutex);
	report_now(result ? "no signal" : "a signal");
	return argument;
}

static void *wait_for_semaphore(void *argument)
{
	struct timespec time = in_100_ms();
	report_now(sem_timedwait(&semaphore, &time) ? "no semaphore" : "a semaphore");
	return argument;
}

static void *wait_for_pipe(void *argument)
{
	struct pollfd asked = { ends[0], POLLIN, 0 };
	report_now(poll(&asked, 1, 100) == 1 ? "a byte" : "no byte");
	return argument;
}

static void *wait_for_mutex(void *argument)
{
	struct timespec time = in_100_ms();
	int result = pthread_mutex_timedlock(&mutex, &time);
	report_now(result ? "no mutex" : "a mutex");
	if (!result)
		pthread_mutex_unlock(&mutex);
	return argument;
}

static void *sleep_15_ms(void *argument)
{
	usleep(15000);
	report_now("an end");
	return argument;
}

static void *wait_for_timer(void *argument)
{
	struct epoll_event event = { .events = EPOLLIN };
	report_now(epoll_wait(set, &event, 1, -1) == 1 ? "a timer" : "no timer");
	return argument;
}

static void set_timer(long milliseconds)
{
	const struct itimerspec to = { .it_value.tv_nsec = milliseconds * MILLISECOND };
	timerfd_settime(timer, 0, &to, NULL);
}

static void set_timer_earlier(void)
{
	set_timer(9);
	usleep(50000);
	report_now("50 ms more");
}

static void *read_samples(void *argument)
{
	read_and_print(device, 8);
	read_and_print(device, 8);
	return argument;
}

static void *sleep_shortly(void *argument)
{
	usleep(2000);
	report_now("overtakes");
	is_over = 1;
	return argument;
}

/* Starts a thread, and a millisecond later, when it sleeps, goes on here. */
static void run_beside(void *(*other)(void *), void (*here)(void))
{
	start = nanoseconds();
	const struct timespec later = { (start + MILLISECOND) / 1000000000, (start + MILLISECOND) % 1000000000 };
	pthread_create(&beside, NULL, other, NULL);
	clock_nanosleep(CLOCK_MONOTONIC, TIMER_ABSTIME, &later, NULL);
	here();
	pthread_join(beside, NULL);
}

static void join_early(void)
{
	long end = start + 10 * MILLISECOND;
	const struct timespec time = { end / 1000000000, end % 1000000000 };
	report_now(pthread_clockjoin_np(beside, NULL, CLOCK_MONOTONIC, &time) ? "no end" : "an end");
}

static void signal_later(void)
{
	usleep(9000);
	pthread_mutex_lock(&mutex);
	pthread_mutex_unlock(&mutex);
	pthread_cond_signal(&condition);
}

static void post_later(void)
{
	usleep(9000);
	compute(200);
	sem_post(&semaphore);
}

static void write_later(void)
{
	usleep(9000);
	if (write(ends[1], "x", 1) != 1)
		perror("write");
}

static void unlock_later(void)
{
	usleep(9000);
	pthread_mutex_unlock(&mutex);
}

static void do_nothing(void)
{
}

static void run_on(void)
{
	while (!is_over)
		;
}

int main(void)
{
	device = open_board();
	sem_init(&semaphore, 0, 0);
	timer = timerfd_create(CLOCK_MONOTONIC, 0);
	set = epoll_create1(0);
	if (pipe(ends))
		return 1;
	run_beside(sleep_thrice, sleep_twice);
	run_beside(wait_for_condition, signal_later);
	run_beside(wait_for_condition, do_nothing);
	run_beside(wait_for_semaphore, post_later);
	run_beside(wait_for_semaphore, do_nothing);
	run_beside(wait_for_pipe, write_later);
	pthread_mutex_lock(&mutex);
	run_beside(wait_for_mutex, unlock_later);
	run_beside(sleep_15_ms, join_early);
	epoll_ctl(set, EPOLL_CTL_ADD, timer, &(struct epoll_event){ .events = EPOLLIN });
	run_beside(wait_for_timer, set_timer_earlier);
	set_timer(100);
	run_beside(wait_for_timer, set_timer_earlier);
	report("command", give_command(device, 0, TRIG_NOW, MILLISECOND, 100));
	run_beside(read_samples, sleep_shorter);
	pthread_create(&beside, NULL, wait_for_semaphore, NULL);
	usleep(1000);
	pthread_cancel(beside);
	pthread_join(beside, NULL);
	start = nanoseconds();
	usleep(200000);
	report_now("after a thread that was cancelled");
	run_beside(sleep_shortly, run_on);
	comedi_close(device);
	return 0;
}

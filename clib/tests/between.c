/*
 * Signals that come to a thread while it waits for a semaphore or a futex. Such a wait is made of many, and each signal ends it,
 * also one that comes between two of these. A condition variable and a lock go on waiting, and their handler runs.
 *
 * The signals are sent after 3 ms of the client's time, to waits of 500 ms.
 */
#define _GNU_SOURCE
#include "client.h"
#include <linux/futex.h>
#include <pthread.h>
#include <semaphore.h>
#include <signal.h>
#include <sys/syscall.h>
#include <time.h>

#define SIGNALS 60

static sem_t semaphore;
static pthread_mutex_t mutex = PTHREAD_MUTEX_INITIALIZER;
static pthread_cond_t condition = PTHREAD_COND_INITIALIZER;
static volatile sig_atomic_t handled;
static pthread_t waiter;
static int word;

static long microseconds(void)
{
	struct timespec time;
	clock_gettime(CLOCK_MONOTONIC, &time);
	return time.tv_sec * 1000000 + time.tv_nsec / 1000;
}

static struct timespec later(void)
{
	struct timespec time;
	clock_gettime(CLOCK_REALTIME, &time);
	time.tv_nsec += 500 * MILLISECOND;
	time.tv_sec += time.tv_nsec / 1000000000;
	time.tv_nsec %= 1000000000;
	return time;
}

static int wait_for_semaphore(void)
{
	struct timespec time = later();
	return sem_timedwait(&semaphore, &time) ? errno : 0;
}

static int wait_for_futex(void)
{
	const struct timespec time = { 0, 500 * MILLISECOND };
	return syscall(SYS_futex, &word, FUTEX_WAIT | FUTEX_PRIVATE_FLAG, 0, &time, NULL, 0) ? errno : 0;
}

static int wait_for_condition(void)
{
	struct timespec time = later();
	pthread_mutex_lock(&mutex);
	int error = pthread_cond_timedwait(&condition, &mutex, &time);
	pthread_mutex_unlock(&mutex);
	return error;
}

static void note(int number)
{
	(void)number;
	handled++;
}

struct result {
	int (*wait)(void);
	int error;
	long took;
};

static void *run_wait(void *argument)
{
	struct result *result = argument;
	long start = microseconds();
	result->error = result->wait();
	result->took = microseconds() - start;
	return NULL;
}

static void send_signals(const char *name, int (*wait)(void))
{
	int interrupted = 0, in_time = 0, over = 0;
	handled = 0;
	for (int i = 0; i < SIGNALS; i++) {
		struct result result = { wait, 0, 0 };
		pthread_create(&waiter, NULL, run_wait, &result);
		usleep(3000);
		pthread_kill(waiter, SIGUSR1);
		pthread_join(waiter, NULL);
		interrupted += result.error == EINTR;
		in_time += result.took < 4000;
		over += result.error == ETIMEDOUT && result.took >= 500000;
	}
	printf("%s: %d handled, %d interrupted, %d in time, %d over\n", name, handled, interrupted, in_time, over);
}

int main(void)
{
	comedi_t *device = open_board();
	struct sigaction action = { .sa_handler = note };
	sigaction(SIGUSR1, &action, NULL);
	sem_init(&semaphore, 0, 0);
	send_signals("a semaphore", wait_for_semaphore);
	send_signals("a futex", wait_for_futex);
	send_signals("a condition variable", wait_for_condition);
	sigaction(SIGUSR1, &(struct sigaction){ .sa_handler = SIG_IGN }, NULL);
	send_signals("a signal that is ignored", wait_for_semaphore);
	comedi_close(device);
	return 0;
}

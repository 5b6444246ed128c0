/*
 * A thread that waits for a condition variable is signalled, once by a signal, once by a broadcast, and once it waits up to
 * a time. That goes without a board, too.
 */
#include "client.h"
#include <pthread.h>
#include <time.h>

static pthread_mutex_t mutex = PTHREAD_MUTEX_INITIALIZER;
static pthread_cond_t condition = PTHREAD_COND_INITIALIZER;
static int turn, has_end;

static void *wait_for_turn(void *argument)
{
	struct timespec time;
	clock_gettime(CLOCK_REALTIME, &time);
	time.tv_sec += 1000;
	pthread_mutex_lock(&mutex);
	while (!turn)
		has_end ? pthread_cond_timedwait(&condition, &mutex, &time) : pthread_cond_wait(&condition, &mutex);
	turn = 0;
	pthread_mutex_unlock(&mutex);
	return argument;
}

static void signal_thread(const char *name, int (*signal)(pthread_cond_t *), int waits_with_end)
{
	pthread_t thread;
	has_end = waits_with_end;
	pthread_create(&thread, NULL, wait_for_turn, NULL);
	usleep(10000);
	pthread_mutex_lock(&mutex);
	turn = 1;
	signal(&condition);
	pthread_mutex_unlock(&mutex);
	pthread_join(thread, NULL);
	printf("%s\n", name);
}

static void signal_threads(void)
{
	signal_thread("a signal", pthread_cond_signal, 0);
	signal_thread("a broadcast", pthread_cond_broadcast, 0);
	signal_thread("a signal before the end", pthread_cond_signal, 1);
}

int main(void)
{
	setvbuf(stdout, NULL, _IOLBF, 0);
	alarm(20);
	signal_threads();
	comedi_t *device = open_board();
	signal_threads();
	comedi_close(device);
	return 0;
}

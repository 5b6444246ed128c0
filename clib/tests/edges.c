/*
 * Members of a set that are asked for edges or for one event alone, and sets that change while another thread waits for them.
 *
 * On wide.board a sample comes every millisecond, and the first one at the command itself. A member that is asked for edges is
 * told of each sample once, whether it's read or not. Times are those of the client's clock, in milliseconds.
 */
#define _GNU_SOURCE
#include "client.h"
#include <pthread.h>
#include <sys/epoll.h>
#include <time.h>

static comedi_t *device;
static int descriptor, set, ends[2];
static long start;

static long milliseconds(void)
{
	struct timespec time;
	clock_gettime(CLOCK_MONOTONIC, &time);
	return time.tv_sec * 1000 + time.tv_nsec / 1000000;
}

static void change(const char *name, int what, unsigned events)
{
	struct epoll_event event = { .events = events, .data.u64 = 7 };
	report(name, epoll_ctl(set, what, descriptor, &event));
}

static void wait_for(const char *name, int timeout)
{
	struct epoll_event events[4];
	long before = milliseconds();
	int count = epoll_wait(set, events, 4, timeout);
	printf("%s: %d%s%s%s, %ld ms\n", name, count, count > 0 && events[0].data.u64 == 7 ? ", the board" : "",
		count > 0 && events[0].events & EPOLLIN ? ", to read" : "", count > 0 && events[0].events & EPOLLOUT ? ", to write" : "",
		milliseconds() - before);
}

static void see_edges(void)
{
	set = epoll_create1(0);
	report("command", give_command(device, 0, TRIG_NOW, MILLISECOND, 6));
	change("edges", EPOLL_CTL_ADD, EPOLLIN | EPOLLET);
	wait_for("the first sample", -1);
	wait_for("nothing new", 0);
	wait_for("the second sample", -1);
	read_and_print(device, 8);
	wait_for("nothing new", 0);
	wait_for("the third sample", 10);
	change("changed", EPOLL_CTL_MOD, EPOLLIN | EPOLLET);
	wait_for("told again", 0);
	wait_for("nothing new", 0);
	read_and_print(device, 8);
	wait_for("the fourth sample", 10);
	usleep(10000);
	wait_for("the end", 0);
	wait_for("nothing after it", 20);
	read_and_print(device, 8);
	read_and_print(device, 8);
	close(set);
}

static void see_edges_of_output(void)
{
	static const sampl_t words[8];
	set = epoll_create1(0);
	report("command", give_command(device, 1, TRIG_INT, MILLISECOND, 0));
	report("words", write(descriptor, words, sizeof words));
	change("edges", EPOLL_CTL_ADD, EPOLLOUT | EPOLLET);
	wait_for("full", 0);
	comedi_internal_trigger(device, 1, 0);
	wait_for("room for one", 10);
	wait_for("room for two", 10);
	wait_for("nothing new", 0);
	comedi_cancel(device, 1);
	wait_for("cancelled", 10);
	close(set);
}

static void see_one_event(void)
{
	set = epoll_create1(0);
	report("command", give_command(device, 0, TRIG_NOW, MILLISECOND, 6));
	change("one event", EPOLL_CTL_ADD, EPOLLIN | EPOLLONESHOT);
	wait_for("the first sample", -1);
	wait_for("no more", 3);
	change("changed", EPOLL_CTL_MOD, EPOLLIN | EPOLLET | EPOLLONESHOT);
	wait_for("one more", 0);
	wait_for("no more", 3);
	comedi_cancel(device, 0);
	close(set);
	change("a set that is closed", EPOLL_CTL_ADD, EPOLLIN);
	set = ends[0];
	change("no set", EPOLL_CTL_ADD, EPOLLIN);
}

static void *wait_beside(void *timeout)
{
	struct epoll_event event = { 0 };
	int count = epoll_wait(set, &event, 1, *(const int *)timeout);
	long end = milliseconds();
	printf("a wait of %d ms: %d%s after %ld ms\n", *(const int *)timeout, count, count == 1 && event.data.u64 == 7 ? ", the board" : "", end - start);
	return NULL;
}

/* Threads wait for a set that has only a pipe. After 3 ms it gets the board, whose next sample comes 5 ms later. */
static void add_later(int threads, int timeout)
{
	struct epoll_event event = { .events = EPOLLIN };
	pthread_t beside[2];
	set = epoll_create1(0);
	epoll_ctl(set, EPOLL_CTL_ADD, ends[0], &event);
	give_command(device, 0, TRIG_NOW, 8 * MILLISECOND, 0);
	read_and_print(device, 1);
	start = milliseconds();
	for (int i = 0; i < threads; i++)
		pthread_create(beside + i, NULL, wait_beside, &timeout);
	usleep(3000);
	change("added", EPOLL_CTL_ADD, EPOLLIN);
	for (int i = 0; i < threads; i++)
		pthread_join(beside[i], NULL);
	comedi_cancel(device, 0);
	close(set);
}

/* A thread waits for the board, which is taken out of the set after 3 ms. */
static void remove_later(void)
{
	static const int timeout = 20;
	pthread_t beside;
	set = epoll_create1(0);
	give_command(device, 0, TRIG_NOW, 8 * MILLISECOND, 0);
	read_and_print(device, 1);
	change("added", EPOLL_CTL_ADD, EPOLLIN);
	start = milliseconds();
	pthread_create(&beside, NULL, wait_beside, (void *)&timeout);
	usleep(3000);
	change("removed", EPOLL_CTL_DEL, 0);
	pthread_join(beside, NULL);
	comedi_cancel(device, 0);
	close(set);
}

int main(void)
{
	device = open_board();
	descriptor = comedi_fileno(device);
	if (pipe(ends))
		return 1;
	see_edges();
	see_edges_of_output();
	see_one_event();
	add_later(1, -1);
	add_later(2, -1);
	add_later(1, 100);
	remove_later();
	comedi_close(device);
	return 0;
}

/*
 * A timer that is a file. It is set at 0.5 ms to 5 ms and then each 10 ms, so it is due at 5.5, 15.5, 25.5 and so on, a few
 * calls later. On wide.board channel 0 has the code of the milliseconds, which are reported.
 */
#include "client.h"
#include <fcntl.h>
#include <poll.h>
#include <stdint.h>
#include <sys/epoll.h>
#include <sys/select.h>
#include <sys/timerfd.h>
#include <time.h>

static comedi_t *device;

static void report_at(const char *what, long result)
{
	lsampl_t code = 0;
	int error = errno;
	comedi_data_read(device, 0, 0, 0, AREF_GROUND, &code);
	errno = error;
	printf("%2u ms  ", code);
	report(what, result);
}

/* How often the timer was due since it was read. */
static long due(int timer)
{
	uint64_t count;
	return read(timer, &count, sizeof count) == sizeof count ? (long)count : -1;
}

static void set_timer(int timer, int flags, struct timespec first, long interval)
{
	const struct itimerspec to = { .it_value = first, .it_interval.tv_nsec = interval };
	report_at("set", timerfd_settime(timer, flags, &to, NULL));
}

static void wait_for_timer(int timer)
{
	struct pollfd asked = { timer, POLLIN, 0 };
	struct epoll_event event = { .events = EPOLLIN };
	struct timeval time = { 0, 100000 };
	struct itimerspec left;
	int set = epoll_create1(0);
	fd_set reads;
	FD_ZERO(&reads);
	FD_SET(timer, &reads);
	epoll_ctl(set, EPOLL_CTL_ADD, timer, &event);
	report_at("read", due(timer));
	report_at("poll", poll(&asked, 1, -1));
	report_at("read", due(timer));
	usleep(25000);
	report_at("read after two", due(timer));
	timerfd_gettime(timer, &left);
	report("milliseconds up to the next", (left.it_value.tv_nsec + 999999) / 1000000);
	report_at("epoll_wait", epoll_wait(set, &event, 1, -1));
	report_at("read", due(timer));
	report_at("poll of 3 ms", poll(&asked, 1, 3));
	report_at("select", select(timer + 1, &reads, NULL, NULL, &time));
	report_at("read", due(timer));
	fcntl(timer, F_SETFL, O_NONBLOCK);
	report_at("read that doesn't wait", due(timer));
	close(set);
}

int main(void)
{
	device = open_board();
	int timer = timerfd_create(CLOCK_MONOTONIC, 0), other = timerfd_create(CLOCK_REALTIME, TFD_CLOEXEC);
	struct pollfd asked = { timer, POLLIN, 0 };
	struct timespec end;
	usleep(500);
	set_timer(timer, 0, (struct timespec){ 0, 5 * MILLISECOND }, 10 * MILLISECOND);
	wait_for_timer(timer);
	set_timer(timer, 0, (struct timespec){ 0, 0 }, 0);
	report_at("poll of a timer that isn't set", poll(&asked, 1, 10));
	clock_gettime(CLOCK_REALTIME, &end);
	end.tv_nsec += 10 * MILLISECOND;
	set_timer(other, TFD_TIMER_ABSTIME, end, 0);
	report_at("read", due(other));
	comedi_close(device);
	return 0;
}

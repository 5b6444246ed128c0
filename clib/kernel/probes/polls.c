/* poll, select and epoll: of idle files, in sets with others, and while samples come.
 *     polls PART */
#include "probe.h"
#include <sys/epoll.h>
#include <sys/select.h>

static unsigned list[] = { 2, 3 };
static char bytes[BUFFER_BYTES];
static const short events[] = { POLLIN, POLLOUT, POLLPRI, POLLIN | POLLOUT | POLLPRI, POLLRDNORM, POLLWRNORM, POLLRDBAND,
	POLLIN | POLLOUT | POLLRDNORM | POLLWRNORM, 0, -1 };

static const char *select_answer(int file, int seconds)
{
	static char text[60];
	fd_set reads, writes, exceptions;
	struct timeval time = { seconds, 0 };
	FD_ZERO(&reads);
	FD_ZERO(&writes);
	FD_ZERO(&exceptions);
	FD_SET(file, &reads);
	FD_SET(file, &writes);
	FD_SET(file, &exceptions);
	int result = select(file + 1, &reads, &writes, &exceptions, &time);
	snprintf(text, sizeof text, "%s, read %d, write %d, exception %d", answer(result), !!FD_ISSET(file, &reads),
		!!FD_ISSET(file, &writes), !!FD_ISSET(file, &exceptions));
	return text;
}

/* Asks in every way, without a wait. */
static void look(int file, const char *what)
{
	for (size_t e = 0; e < LENGTH(events); e++)
		row("%s: poll %x = %s", what, (unsigned short)events[e], poll_answer(file, events[e], 0));
	row("%s: select = %s", what, select_answer(file, 0));
	int set = epoll_create1(0);
	struct epoll_event event = { .events = EPOLLIN | EPOLLOUT | EPOLLPRI, .data.u64 = 77 };
	epoll_ctl(set, EPOLL_CTL_ADD, file, &event);
	event.data.u64 = 0;
	int result = epoll_wait(set, &event, 1, 0);
	row("%s: epoll = %s %x, %d", what, answer(result), result == 1 ? event.events : 0, (int)event.data.u64);
	close(set);
}

static void states(char **words)
{
	int file = open_device(O_RDWR | O_NONBLOCK);
	(void)words;
	set_buffers(file);
	look(file, "idle");
	give(file, input_command(list, 2, 100000, 5));
	await_end(file, INPUT);
	look(file, "input ended");
	read(file, bytes, 19);
	look(file, "input ended, a byte is left");
	read(file, bytes, 1);
	look(file, "input ended and read out");
	read(file, bytes, 1);
	look(file, "input reported");
	overrun(file);
	look(file, "input overrun");
	ioctl(file, COMEDI_CANCEL, INPUT);
	give(file, output_command(list, 2, SLOW, 0));
	look(file, "output armed");
	write(file, bytes, 7);
	look(file, "output armed, 7 bytes");
	write(file, bytes, BUFFER_BYTES);
	look(file, "output armed and full");
	give(file, input_command(list, 2, 100000, 5));
	await_end(file, INPUT);
	look(file, "output full and input ended");
	ioctl(file, COMEDI_CANCEL, OUTPUT);
	look(file, "output cancelled and input ended");
	close(file);
}

static void with_others(char **words)
{
	int file = open_device(O_RDWR), pipes[2];
	struct pollfd set[4] = { { file, POLLIN, 0 }, { -1, POLLIN, 0 }, { 900, POLLIN, 0 } };
	(void)words;
	set_buffers(file);
	int result = poll(set, 3, 0);
	row("poll with one that is left out and one that is closed = %s, %x %x %x", answer(result), set[0].revents,
		set[1].revents, set[2].revents);
	if (pipe(pipes))
		return;
	set[0] = (struct pollfd){ file, POLLOUT, 0 };
	set[1] = (struct pollfd){ pipes[0], POLLIN, 0 };
	give(file, output_command(list, 2, SLOW, 0));
	write(file, bytes, BUFFER_BYTES);
	result = poll(set, 2, 20);
	row("poll with an empty pipe, full = %s, %x %x", answer(result), set[0].revents, set[1].revents);
	write(pipes[1], "x", 1);
	result = poll(set, 2, -1);
	row("poll with a pipe that has a byte, full = %s, %x %x", answer(result), set[0].revents, set[1].revents);
	ioctl(file, COMEDI_CANCEL, OUTPUT);
	result = poll(set, 2, -1);
	row("poll with both = %s, %x %x", answer(result), set[0].revents, set[1].revents);
	row("poll of none = %s", answer(poll(NULL, 0, 1)));
	close(file);
}

static void poll_nowhere(char **words)
{
	int file = open_device(O_RDWR);
	(void)words;
	row("poll at no page = %s", answer(poll(no_page, 1, 0)));
	close(file);
}

static void select_nowhere(char **words)
{
	int file = open_device(O_RDWR);
	struct timeval time = { 0, 0 };
	(void)words;
	row("select at no page = %s", answer(select(file + 1, no_page, NULL, NULL, &time)));
	close(file);
}

static void epoll_nowhere(char **words)
{
	int file = open_device(O_RDWR), set = epoll_create1(0);
	struct epoll_event event = { .events = EPOLLIN };
	(void)words;
	row("add at no page = %s", answer(epoll_ctl(set, EPOLL_CTL_ADD, file, no_page)));
	epoll_ctl(set, EPOLL_CTL_ADD, file, &event);
	row("wait at no page = %s", answer(epoll_wait(set, no_page, 1, 0)));
	close(file);
}

static void members(char **words)
{
	int file = open_device(O_RDWR), copy = dup(file), set = epoll_create1(0);
	struct epoll_event event = { .events = EPOLLIN | EPOLLOUT, .data.u64 = 77 }, got[4] = { 0 };
	(void)words;
	row("add = %s", answer(epoll_ctl(set, EPOLL_CTL_ADD, file, &event)));
	row("add again = %s", answer(epoll_ctl(set, EPOLL_CTL_ADD, file, &event)));
	row("add the double = %s", answer(epoll_ctl(set, EPOLL_CTL_ADD, copy, &event)));
	row("wait = %s", answer(epoll_wait(set, got, 4, 0)));
	row("wait for one = %s", answer(epoll_wait(set, got, 1, 0)));
	row("remove the double = %s", answer(epoll_ctl(set, EPOLL_CTL_DEL, copy, &event)));
	event.events = EPOLLOUT;
	row("change = %s", answer(epoll_ctl(set, EPOLL_CTL_MOD, file, &event)));
	int result = epoll_wait(set, got, 4, 0);
	row("wait = %s, %x", answer(result), got[0].events);
	event.events = EPOLLIN | EPOLLONESHOT;
	row("once = %s", answer(epoll_ctl(set, EPOLL_CTL_MOD, file, &event)));
	row("wait = %s", answer(epoll_wait(set, got, 4, 0)));
	row("wait again = %s", answer(epoll_wait(set, got, 4, 0)));
	row("change of one that isn't there = %s", answer(epoll_ctl(set, EPOLL_CTL_MOD, copy, &event)));
	row("remove = %s", answer(epoll_ctl(set, EPOLL_CTL_DEL, file, &event)));
	row("remove again = %s", answer(epoll_ctl(set, EPOLL_CTL_DEL, file, &event)));
	row("wait for none = %s", answer(epoll_wait(set, got, 4, 0)));
	epoll_ctl(set, EPOLL_CTL_ADD, file, &event);
	close(file);
	result = epoll_wait(set, got, 4, 0);
	row("wait after one of two descriptors is closed = %s", answer(result));
	close(copy);
	row("wait after both are closed = %s", answer(epoll_wait(set, got, 4, 0)));
	close(set);
}

/* EPOLLET reports a file when it gets ready, and not again while it stays so. */
static void edges(char **words)
{
	int file = open_device(O_RDWR | O_NONBLOCK), set = epoll_create1(0);
	struct epoll_event event = { .events = EPOLLIN | EPOLLET }, got[4];
	(void)words;
	set_buffers(file);
	row("add = %s", answer(epoll_ctl(set, EPOLL_CTL_ADD, file, &event)));
	row("wait while idle = %s", answer(epoll_wait(set, got, 4, 0)));
	row("wait again = %s", answer(epoll_wait(set, got, 4, 0)));
	give(file, input_command(list, 2, 100000, 5));
	await_end(file, INPUT);
	row("wait when it has ended = %s", answer(epoll_wait(set, got, 4, 0)));
	row("wait again = %s", answer(epoll_wait(set, got, 4, 0)));
	row("read = %s", answer(read(file, bytes, 20)));
	row("wait when it is read out = %s", answer(epoll_wait(set, got, 4, 0)));
	row("read = %s", answer(read(file, bytes, 20)));
	give(file, input_command(list, 2, 100000, 5));
	await_end(file, INPUT);
	row("wait after a second command = %s", answer(epoll_wait(set, got, 4, 0)));
	row("wait again = %s", answer(epoll_wait(set, got, 4, 0)));
	close(set);
	close(file);
}

static void samples(char **words)
{
	int file = open_device(O_RDWR | O_NONBLOCK);
	(void)words;
	set_buffers(file);
	row("poll while idle, 50 ms = %s", poll_answer(file, POLLIN, 50));
	row("poll for the exceptional, 20 ms = %s", poll_answer(file, POLLPRI, 20));
	row("command = %s", answer(give(file, input_command(list, 1, 50000000, 3))));
	row("poll of a running one for words = %s", poll_answer(file, POLLOUT, 0));
	row("poll waits for a sample = %s", poll_answer(file, POLLIN, 3000));
	row("select waits for nothing = %s", select_answer(file, 3));
	await_end(file, INPUT);
	row("read = %s", answer(read(file, bytes, 6)));
	row("poll at the end = %s", poll_answer(file, POLLIN, 3000));
	row("read = %s", answer(read(file, bytes, 6)));
	row("read = %s", answer(read(file, bytes, 6)));
	row("poll while idle = %s", poll_answer(file, POLLIN, 0));
	close(file);
}

int main(int argc, char **argv)
{
	static const struct part parts[] = { { "states", states }, { "with_others", with_others },
		{ "poll_nowhere", poll_nowhere }, { "select_nowhere", select_nowhere }, { "epoll_nowhere", epoll_nowhere },
		{ "members", members }, { "edges", edges }, { "samples", samples } };
	(void)argc;
	make_pages();
	return run_part(parts, LENGTH(parts), argv, 120);
}

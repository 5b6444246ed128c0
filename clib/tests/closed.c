/*
 * Numbers of the board that come to other files. A client closes the board's descriptor where no name of the C library sees
 * it: by a system call, by its stream, by a range of numbers, or in a child made by vfork. What has the number then is read
 * as what it is, and the file of the session is closed, so its lock is free and there is room for another one.
 *
 * On wide.board channel 1 of the input has the code 7.
 */
#define _GNU_SOURCE
#include "client.h"
#include <fcntl.h>
#include <sys/epoll.h>
#include <sys/ioctl.h>
#include <sys/select.h>
#include <sys/syscall.h>
#include <sys/wait.h>

static int open_file(void)
{
	return open("/dev/comedi0", O_RDWR);
}

static void close_by_call(int descriptor)
{
	syscall(SYS_close, descriptor);
}

static void close_by_stream(int descriptor)
{
	fclose(fdopen(descriptor, "r+"));
}

static void close_by_range(int descriptor)
{
	close_range(descriptor, descriptor, 0);
}

/* Reads a value from the board. */
static int reads_value(int descriptor)
{
	lsampl_t code = 0;
	comedi_insn one = { .insn = INSN_READ, .n = 1, .data = &code, .subdev = 0, .chanspec = CR_PACK(1, 0, AREF_GROUND) };
	return ioctl(descriptor, COMEDI_INSN, &one) == 1 && code == 7;
}

/* Closes the board, whose lock is held, and gives its number to a pipe. */
static void reuse_number(const char *name, void (*close_it)(int))
{
	int board = open_file(), ends[2];
	char text[8] = "";
	ioctl(board, COMEDI_LOCK, 0);
	close_it(board);
	if (pipe(ends) || write(ends[1], "hello", 5) != 5)
		return;
	printf("%s: %s number, ", name, ends[0] == board ? "the same" : "another");
	int value = reads_value(ends[0]);
	ssize_t bytes = read(ends[0], text, 5);
	printf("%s value, %zd bytes: %s\n", value ? "a" : "no", bytes, bytes < 0 ? strerror(errno) : text);
	close(ends[0]);
	close(ends[1]);
	board = open_file();
	report("its lock", ioctl(board, COMEDI_LOCK, 0));
	close(board);
}

/* More files than the session has, each lost. */
static void lose_files(void)
{
	int opened = 0;
	for (int i = 0; i < 40; i++) {
		int board = open_file();
		opened += board >= 0 && reads_value(board);
		close_by_call(board);
	}
	printf("%d of 40 files\n", opened);
}

static void close_all(void)
{
	int board = open_file();
	close_range(3, ~0u, 0);
	printf("after all is closed: %s value\n", reads_value(board) ? "a" : "no");
	board = open_file();
	printf("opened again: %s value\n", reads_value(board) ? "a" : "no");
	close(board);
}

/* Takes all numbers that the library may have for itself, by a file whose text stays. */
static void take_numbers(void)
{
	int board = open_file(), file = open("closed.txt", O_RDWR | O_CREAT | O_TRUNC, 0600);
	char text[16] = "";
	if (write(file, "its own text", 12) != 12)
		return;
	for (int number = 240; number < 256; number++)
		dup2(file, number);
	printf("after numbers were taken: %s value, ", reads_value(board) ? "a" : "no");
	printf("%zd bytes: %s\n", pread(file, text, 15, 0), text);
	for (int number = 240; number < 256; number++)
		close(number);
	close(file);
	close(board);
}

static void close_in_child(void)
{
	int board = open_file(), status;
	pid_t child = vfork();
	if (!child) {
		close(board);
		dup2(2, board + 1);
		_exit(0);
	}
	waitpid(child, &status, 0);
	printf("after a child made by vfork has closed it: %s value\n", reads_value(board) ? "a" : "no");
	close(board);
}

/* A set of descriptors that is no longer than its numbers need. */
static void select_short(void)
{
	unsigned char room[256];
	int board = open_file(), ends[2], changed = 0;
	size_t bytes = sizeof(fd_mask);
	struct timeval time = { 0, 1000 };
	if (pipe(ends) || ends[1] >= NFDBITS)
		return;
	memset(room, 0xaa, sizeof room);
	memset(room + 64, 0, bytes);
	FD_SET(ends[0], (fd_set *)(room + 64));
	FD_SET(board, (fd_set *)(room + 64));
	int ready = select(ends[0] + 1, (fd_set *)(room + 64), NULL, NULL, &time);
	for (size_t i = 64 + bytes; i < sizeof room; i++)
		changed += room[i] != 0xaa;
	printf("select: %d ready, the board %s, %d bytes behind the set\n", ready, FD_ISSET(board, (fd_set *)(room + 64)) ? "too" : "not", changed);
	close(ends[0]);
	close(ends[1]);
	close(board);
}

static void wait_for_no_set(void)
{
	int board = open_file(), set = epoll_create1(0), ends[2];
	struct epoll_event event = { .events = EPOLLIN };
	if (pipe(ends) || write(ends[1], "x", 1) != 1)
		return;
	close(set);
	report("a set that is closed", epoll_wait(set, &event, 1, 100));
	report("no set", epoll_wait(-1, &event, 1, 100));
	report("a pipe", epoll_wait(ends[0], &event, 1, 100));
	close(board);
}

int main(void)
{
	setvbuf(stdout, NULL, _IOLBF, 0);
	alarm(20);
	/* the board stays open meanwhile */
	int board = open_file();
	reuse_number("by a system call", close_by_call);
	reuse_number("by its stream", close_by_stream);
	reuse_number("by a range", close_by_range);
	lose_files();
	close_in_child();
	select_short();
	wait_for_no_set();
	take_numbers();
	printf("the first one: %s value\n", reads_value(board) ? "a" : "no");
	close_all();
	return 0;
}

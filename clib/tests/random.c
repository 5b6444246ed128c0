/*
 * Random calls of the device file, with what a client may pass and what it mustn't: `random CALLS [SEED]`.
 *
 * Linked with the device's own objects, under the compiler's checks of addresses and of undefined behaviour:
 *
 *     make sanitized && ZENDROUZ_BOARD=tests/wide.board ZENDROUZ_CORE=.. out/sanitized/random 1000000
 *
 * runs a million calls. The same seed makes the same calls. A call must answer within its bounds, and mustn't write
 * outside the memory that it was given; the program of answers mustn't refuse a line, which would be reported on standard
 * error.
 */
#define _GNU_SOURCE
#include "client.h"
#include <fcntl.h>
#include <poll.h>
#include <signal.h>
#include <stdint.h>
#include <sys/epoll.h>
#include <sys/ioctl.h>
#include <sys/mman.h>
#include <sys/select.h>
#include <sys/stat.h>
#include <sys/timerfd.h>
#include <sys/uio.h>
#include <sys/wait.h>
#include <time.h>

#define FILES 3
#define ROOM 8192
#define GUARD 64
#define CALLS_OF_A_BOARD 500

static uint64_t state = 1;
static int files[FILES], set, timer;
static unsigned char memory[ROOM + GUARD];
static unsigned list[300], data[4096];
static comedi_insn instructions[16];
static void *wild[4];

static unsigned below(unsigned bound)
{
	state = state * 6364136223846793005ull + 1442695040888963407ull;
	return (state >> 33) % bound;
}

/* mostly small, at times anything */
static unsigned number(void)
{
	static const unsigned edges[] = { 0, 1, 255, 256, 65535, 65536, 0x7fffffff, 0x80000000, 0xffffffff };
	switch (below(8)) {
	case 0:
		return edges[below(sizeof edges / sizeof *edges)];
	case 1:
		return below(0x7fffffff) * 2 + below(2);
	}
	return below(6);
}

/* mostly the memory that is meant, at times another or none */
static void *pointer(void *meant)
{
	return below(12) ? meant : wild[below(4)];
}

static unsigned source(void)
{
	static const unsigned sources[] = { TRIG_NOW, TRIG_TIMER, TRIG_COUNT, TRIG_NONE, TRIG_INT, TRIG_EXT, TRIG_FOLLOW };
	return below(10) ? sources[below(7)] : number();
}

/* Half of the commands are near ones that a board takes. */
static void fill_command(comedi_cmd *command)
{
	int good = below(2);
	memset(command, 0, sizeof *command);
	command->subdev = below(3) ? below(2) : number();
	command->flags = below(4) ? 0 : number();
	command->start_src = good ? (command->subdev ? TRIG_INT : TRIG_NOW) : source();
	command->scan_begin_src = good ? TRIG_TIMER : source();
	command->scan_begin_arg = below(5) ? 1000 * (1 + below(2000)) : number();
	command->convert_src = good ? TRIG_NOW : source();
	command->convert_arg = good ? 0 : number();
	command->scan_end_src = good ? TRIG_COUNT : source();
	command->chanlist_len = below(8) ? 1 + below(below(4) ? 2 : 20) : number() % 300;
	command->scan_end_arg = below(8) ? command->chanlist_len : number();
	command->stop_src = below(2) ? TRIG_COUNT : good ? TRIG_NONE : source();
	command->stop_arg = command->stop_src == TRIG_NONE ? 0 : number();
	for (int i = 0; i < 300; i++)
		list[i] = below(30) ? below(2) : number();
	command->chanlist = pointer(list);
}

static void fill_instruction(comedi_insn *one)
{
	static const unsigned kinds[] = { INSN_READ, INSN_WRITE, INSN_BITS, INSN_CONFIG, INSN_GTOD, INSN_WAIT, INSN_INTTRIG };
	memset(one, 0, sizeof *one);
	one->insn = below(12) ? kinds[below(7)] : number();
	one->n = below(6) ? 1 + below(2) : below(6) ? below(200) : number();
	/* what is longer than the data has to be refused, or its data lie nowhere */
	one->data = one->n > sizeof data / sizeof *data ? wild[below(4)] : pointer(data);
	one->subdev = below(6) ? below(4) : number();
	one->chanspec = below(6) ? below(9) : number();
	for (int i = 0; i < 8; i++)
		data[i] = number();
}

static long call_ioctl(int descriptor)
{
	static const unsigned subdevice_calls[] = { COMEDI_LOCK, COMEDI_UNLOCK, COMEDI_CANCEL, COMEDI_POLL, COMEDI_SETRSUBD, COMEDI_SETWSUBD };
	comedi_insnlist many = { .n_insns = below(20) ? below(5) : number(), .insns = pointer(instructions) };
	comedi_rangeinfo ranges = { .range_type = below(2) ? below(3) << 24 | 1 : number(), .range_ptr = pointer(memory) };
	comedi_chaninfo channels = { .subdev = number(), .rangelist = below(2) ? pointer(memory) : NULL };
	comedi_bufinfo buffer = { .subdevice = below(8) ? below(2) : number(), .bytes_read = number(), .bytes_written = number() };
	comedi_bufconfig size = { .subdevice = number(), .size = number() };
	comedi_cmd command;
	switch (below(14)) {
	case 0:
		return ioctl(descriptor, COMEDI_DEVINFO, pointer(memory));
	case 1:
		return ioctl(descriptor, COMEDI_SUBDINFO, pointer(memory));
	case 2:
		return ioctl(descriptor, COMEDI_CHANINFO, pointer(&channels));
	case 3:
		return ioctl(descriptor, COMEDI_RANGEINFO, pointer(&ranges));
	case 4:
	case 5:
		fill_command(&command);
		return ioctl(descriptor, below(3) ? COMEDI_CMD : COMEDI_CMDTEST, pointer(&command));
	case 6:
		fill_instruction(instructions);
		return ioctl(descriptor, COMEDI_INSN, pointer(instructions));
	case 7:
		for (int i = 0; i < 5; i++)
			fill_instruction(instructions + i);
		return ioctl(descriptor, COMEDI_INSNLIST, pointer(&many));
	case 8:
	case 9:
		return ioctl(descriptor, COMEDI_BUFINFO, pointer(&buffer));
	case 10:
		return ioctl(descriptor, COMEDI_BUFCONFIG, pointer(&size));
	case 11:
	case 12:
		return ioctl(descriptor, subdevice_calls[below(6)], (unsigned long)(below(6) ? below(3) : number()));
	}
	return ioctl(descriptor, below(2) ? number() : (unsigned)_IOWR(CIO, below(32), int), pointer(memory));
}

static long call_stream(int descriptor)
{
	size_t bytes = below(8) ? below(64) : below(ROOM);
	struct iovec pieces[2] = { { pointer(memory), bytes }, { pointer(memory), below(16) } };
	struct pollfd asked = { descriptor, number(), 0 };
	struct timeval time = { 0, below(3000) };
	fd_set set;
	switch (below(7)) {
	case 0:
	case 1:
		return read(descriptor, pointer(memory), bytes);
	case 2:
		return write(descriptor, pointer(memory), bytes);
	case 3:
		return below(2) ? readv(descriptor, pieces, 2) : writev(descriptor, pieces, 2);
	case 4:
		return poll(&asked, 1, below(5));
	case 5:
		return below(2) ? pread(descriptor, pointer(memory), bytes, (int)number()) : pwrite(descriptor, pointer(memory), bytes, (int)number());
	}
	FD_ZERO(&set);
	FD_SET(descriptor, &set);
	return below(2) ? select(descriptor + 1, &set, NULL, NULL, &time) : select(descriptor + 1, NULL, &set, NULL, &time);
}

static long call_memory(int descriptor)
{
	size_t bytes = 1 + below(below(4) ? 4096 : 200000);
	int protection = below(2) ? PROT_READ : PROT_READ | PROT_WRITE;
	volatile unsigned char *map = mmap(NULL, bytes, protection, below(4) ? MAP_SHARED : MAP_PRIVATE, descriptor, below(8) ? 0 : (int)number());
	if (map == MAP_FAILED)
		return -1;
	for (size_t i = 0; i < bytes; i++)
		(void)map[i];
	return munmap((void *)map, bytes);
}

/* Sets of descriptors, and signals that a sleep is ended by. */
static long call_set(int descriptor)
{
	static const int changes[] = { EPOLL_CTL_ADD, EPOLL_CTL_MOD, EPOLL_CTL_DEL };
	struct epoll_event events[3] = { { .events = below(4) ? EPOLLIN | EPOLLOUT | (below(2) ? EPOLLET : 0) : number() } };
	switch (below(4)) {
	case 0:
		return epoll_ctl(set, changes[below(3)], descriptor, events);
	case 1:
		return fcntl(descriptor, F_SETFL, O_NONBLOCK | (below(40) ? 0 : O_ASYNC));
	case 2:
		return usleep(below(4000));
	}
	return epoll_wait(set, events, 1 + below(3), below(4));
}

/* A stream over the device, and what its file is. */
static long call_library(int descriptor)
{
	struct stat file;
	FILE *stream = below(2) ? fdopen(dup(descriptor), "r+") : fopen("/dev/comedi0", below(2) ? "r" : "w");
	if (!stream)
		return -1;
	size_t count = below(2) ? fread(memory, 1, below(ROOM), stream) : fwrite(memory, 1, below(ROOM), stream);
	int result = fstat(fileno(stream), &file) || !S_ISCHR(file.st_mode) || lseek(descriptor, number(), SEEK_CUR) ? -2 : 0;
	fclose(stream);
	return result ? result : (long)count;
}

/* Clocks, a timer, and waits for files that aren't the device's. */
static long call_clock(void)
{
	static const int clocks[] = { CLOCK_REALTIME, CLOCK_MONOTONIC, CLOCK_BOOTTIME, CLOCK_PROCESS_CPUTIME_ID };
	const struct itimerspec to = { { 0, below(3) * 1000000 }, { 0, below(3000000) } };
	struct pollfd asked[2] = { { timer, POLLIN, 0 }, { files[below(FILES)], POLLIN, 0 } };
	struct timespec time;
	switch (below(6)) {
	case 0:
		return clock_gettime(clocks[below(4)], &time);
	case 1:
		return timerfd_settime(timer, below(2) ? TFD_TIMER_ABSTIME : 0, &to, NULL);
	case 2:
		return read(timer, pointer(memory), number() % ROOM);
	case 3:
		return epoll_ctl(set, below(2) ? EPOLL_CTL_ADD : EPOLL_CTL_DEL, timer, &(struct epoll_event){ .events = EPOLLIN });
	case 4:
		return select(timer + 1, NULL, NULL, NULL, &(struct timeval){ 0, below(4000) });
	}
	return poll(asked, 1 + below(2), below(4));
}

static void note(int number_of_signal)
{
	(void)number_of_signal;
}

static long call_file(int which)
{
	switch (below(4)) {
	case 0:
		close(files[which]);
		files[which] = open("/dev/comedi0", O_RDWR | (below(2) ? O_NONBLOCK : 0));
		return files[which];
	case 1:
		return fcntl(files[which], F_SETFL, below(4) ? O_NONBLOCK : 0);
	case 2:
		usleep(below(4000));
		return 0;
	}
	int twin = dup(files[which]);
	return twin < 0 ? -1 : close(twin);
}

static long call_any(int kind, int which)
{
	if (kind < 9)
		return call_ioctl(files[which]);
	if (kind < 13)
		return call_stream(files[which]);
	if (kind < 14)
		return call_memory(files[which]);
	if (kind < 16)
		return call_set(files[which]);
	if (kind < 18)
		return call_clock();
	return kind < 20 ? call_file(which) : call_library(files[which]);
}

/* Some calls on a board of their own, in a process of their own: else all would soon be at the board's horizon. */
static int run_calls(unsigned calls)
{
	set = epoll_create1(0);
	timer = timerfd_create(CLOCK_MONOTONIC, TFD_NONBLOCK);
	for (int i = 0; i < FILES; i++)
		if ((files[i] = open("/dev/comedi0", O_RDWR | O_NONBLOCK)) < 0 || fcntl(files[i], F_SETOWN, getpid()))
			return report("open", -1);
	for (unsigned i = 0; i < calls; i++) {
		int which = below(FILES), kind = below(21);
		memset(memory + ROOM, 0xa5, GUARD);
		long result = call_any(kind, which);
		for (int k = 0; k < GUARD; k++)
			if (memory[ROOM + k] != 0xa5)
				return printf("call %u wrote outside\n", i), 1;
		if (result < -1 || (result < 0 && (errno <= 0 || errno > 133)))
			return printf("call %u: %ld, %s\n", i, result, strerror(errno)), 1;
	}
	return 0;
}

int main(int argc, char **argv)
{
	unsigned long calls = argc > 1 ? strtoul(argv[1], NULL, 10) : 1000, seed = argc > 2 ? strtoul(argv[2], NULL, 10) : 1;
	wild[1] = (void *)8;
	wild[2] = (void *)-4096L;
	wild[3] = mmap(NULL, 4096, PROT_NONE, MAP_PRIVATE | MAP_ANONYMOUS, -1, 0);
	signal(SIGIO, note);
	for (unsigned long done = 0; done < calls; done += CALLS_OF_A_BOARD) {
		int status = 0;
		state = seed + done;
		pid_t child = fork();
		if (!child)
			return run_calls(calls - done < CALLS_OF_A_BOARD ? calls - done : CALLS_OF_A_BOARD);
		if (waitpid(child, &status, 0) != child || status) {
			printf("the calls from %lu on: status %x\n", done, status);
			return 1;
		}
	}
	printf("%lu calls\n", calls);
	return 0;
}

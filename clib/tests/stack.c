/*
 * How much of the client's stack a call takes: at most 4,096 bytes. Each call is made by a thread whose stack is filled with
 * a pattern before, and what was overwritten is measured after it. Then a handler of a signal on a small stack of its own
 * reads what is there, and a thread with the least stack that there may be reads, writes and waits.
 *
 * The client's own names are looked up when it starts (LD_BIND_NOW), since the loader takes some of the stack for that.
 */
#define _GNU_SOURCE
#include "client.h"
#include <fcntl.h>
#include <limits.h>
#include <poll.h>
#include <pthread.h>
#include <semaphore.h>
#include <signal.h>
#include <stdint.h>
#include <sys/epoll.h>
#include <sys/ioctl.h>
#include <sys/mman.h>
#include <sys/select.h>
#include <sys/timerfd.h>
#include <time.h>

#define ROOM (1 << 18)
#define PATTERN 0x5a
#define MOST 4096

static unsigned char *stack;
static int descriptor;
static char samples[1 << 15];
static size_t used;
static long got;

static void open_board_file(void)
{
	descriptor = open("/dev/comedi0", O_RDWR);
}

static void command(void)
{
	static unsigned list[1];
	comedi_cmd one = { .start_src = TRIG_NOW, .scan_begin_src = TRIG_TIMER, .scan_begin_arg = 10000, .convert_src = TRIG_NOW,
		.scan_end_src = TRIG_COUNT, .scan_end_arg = 1, .stop_src = TRIG_NONE, .chanlist = list, .chanlist_len = 1 };
	ioctl(descriptor, COMEDI_CMDTEST, &one);
	ioctl(descriptor, COMEDI_CMD, &one);
}

static void read_many(void)
{
	got += read(descriptor, samples, sizeof samples);
}

static void read_one(void)
{
	got += read(descriptor, samples, 2);
}

static void read_bytes(void)
{
	got += read(descriptor, samples, 1001);
}

static void poll_board(void)
{
	struct pollfd asked = { descriptor, POLLIN, 0 };
	poll(&asked, 1, -1);
}

static void select_board(void)
{
	struct timeval time = { 0, 1000 };
	fd_set reads;
	FD_ZERO(&reads);
	FD_SET(descriptor, &reads);
	select(descriptor + 1, &reads, NULL, NULL, &time);
}

static void wait_for_set(void)
{
	struct epoll_event event = { .events = EPOLLIN };
	int set = epoll_create1(0);
	epoll_ctl(set, EPOLL_CTL_ADD, descriptor, &event);
	epoll_wait(set, &event, 1, 100);
	close(set);
}

static void ask_buffer(void)
{
	comedi_bufinfo buffer = { .bytes_read = 100 };
	comedi_bufconfig size = { 0 };
	ioctl(descriptor, COMEDI_BUFINFO, &buffer);
	ioctl(descriptor, COMEDI_BUFCONFIG, &size);
	ioctl(descriptor, COMEDI_POLL, 0);
}

static void map_buffer(void)
{
	void *map = mmap(NULL, 4096, PROT_READ, MAP_SHARED, descriptor, 0);
	ask_buffer();
	read_many();
	munmap(map, 4096);
}

static void ask_board(void)
{
	static comedi_devinfo device;
	static comedi_subdinfo subdevices[16];
	static comedi_krange range[1];
	comedi_rangeinfo ranges = { 1, range };
	ioctl(descriptor, COMEDI_DEVINFO, &device);
	ioctl(descriptor, COMEDI_SUBDINFO, subdevices);
	ioctl(descriptor, COMEDI_RANGEINFO, &ranges);
}

static void instruct(void)
{
	lsampl_t data[2] = { 1, 1 };
	comedi_insn one = { .insn = INSN_BITS, .n = 2, .data = data, .subdev = 2 };
	ioctl(descriptor, COMEDI_INSN, &one);
	one = (comedi_insn){ .insn = INSN_READ, .n = 2, .data = data, .subdev = 0, .chanspec = 1 };
	ioctl(descriptor, COMEDI_INSN, &one);
	one = (comedi_insn){ .insn = INSN_WRITE, .n = 1, .data = data, .subdev = 1 };
	ioctl(descriptor, COMEDI_INSN, &one);
}

static void write_words(void)
{
	static unsigned list[1];
	comedi_cmd one = { .subdev = 1, .start_src = TRIG_INT, .scan_begin_src = TRIG_TIMER, .scan_begin_arg = 10000, .convert_src = TRIG_NOW,
		.scan_end_src = TRIG_COUNT, .scan_end_arg = 1, .stop_src = TRIG_NONE, .chanlist = list, .chanlist_len = 1 };
	lsampl_t zero = 0;
	comedi_insn trigger = { .insn = INSN_INTTRIG, .n = 1, .data = &zero, .subdev = 1 };
	memset(samples, 0, 64);
	ioctl(descriptor, COMEDI_CMD, &one);
	write(descriptor, samples, 5) < 0 ? got-- : 0;
	write(descriptor, samples, 11) < 0 ? got-- : 0;
	ioctl(descriptor, COMEDI_INSN, &trigger);
	write(descriptor, samples, 64) < 0 ? got-- : 0;
	ioctl(descriptor, COMEDI_CANCEL, 1);
}

static void sleep_shortly(void)
{
	usleep(10);
}

static void wait_for_semaphore(void)
{
	struct timespec time;
	sem_t semaphore;
	sem_init(&semaphore, 0, 0);
	clock_gettime(CLOCK_REALTIME, &time);
	sem_timedwait(&semaphore, &time);
	time.tv_sec++;
	sem_timedwait(&semaphore, &time);
}

static void wait_for_timer(void)
{
	const struct itimerspec soon = { .it_value.tv_nsec = 1000 };
	uint64_t count;
	int timer = timerfd_create(CLOCK_MONOTONIC, 0);
	timerfd_settime(timer, 0, &soon, NULL);
	got += read(timer, &count, sizeof count);
	close(timer);
}

static void close_board_file(void)
{
	int other = dup(descriptor);
	close(other);
	close(open("/dev/comedi0", O_RDWR));
}

/* The end of the signals is said on standard error. */
static void sleep_long(void)
{
	usleep(20000000);
}

static const struct {
	const char *name;
	void (*call)(void);
} calls[] = {
	{ "open", open_board_file }, { "instructions", instruct }, { "the board", ask_board }, { "a command", command },
	{ "read", read_many }, { "read of one", read_one }, { "read of bytes", read_bytes }, { "poll", poll_board },
	{ "select", select_board }, { "epoll_wait", wait_for_set }, { "the buffer", ask_buffer }, { "mmap", map_buffer },
	{ "write", write_words }, { "usleep", sleep_shortly }, { "sem_timedwait", wait_for_semaphore },
	{ "a timer", wait_for_timer }, { "close", close_board_file }, { "the end of the signals", sleep_long },
};
#define CALLS (sizeof calls / sizeof *calls)

/* Makes a call, and measures how much of the stack below here was overwritten. */
static void *measure(void *argument)
{
	unsigned char *here = __builtin_frame_address(0), *lowest = stack;
	(*(void (*const *)(void))argument)();
	while (lowest < here && *lowest == PATTERN)
		lowest++;
	used = here - lowest;
	return NULL;
}

static size_t bytes_of(void (*const *call)(void))
{
	pthread_attr_t attributes;
	pthread_t thread;
	memset(stack, PATTERN, ROOM);
	pthread_attr_init(&attributes);
	pthread_attr_setstack(&attributes, stack, ROOM);
	pthread_create(&thread, &attributes, measure, (void *)call);
	pthread_join(thread, NULL);
	return used;
}

static void measure_calls(size_t from, size_t to)
{
	for (size_t i = from; i < to; i++) {
		size_t bytes = bytes_of(&calls[i].call);
		fprintf(stderr, "%s: %zu bytes of stack\n", calls[i].name, bytes);
		printf("%s: %s\n", calls[i].name, bytes <= MOST ? "small" : "too large");
	}
}

static void *read_and_wait(void *argument)
{
	command();
	read_many();
	read_one();
	poll_board();
	write_words();
	select_board();
	sleep_shortly();
	return argument;
}

static void read_in_least(void)
{
	pthread_attr_t attributes;
	pthread_t thread;
	pthread_attr_init(&attributes);
	report("the least stack", pthread_attr_setstacksize(&attributes, PTHREAD_STACK_MIN));
	pthread_create(&thread, &attributes, read_and_wait, NULL);
	pthread_join(thread, NULL);
	printf("it has read\n");
}

static void handle(int number)
{
	(void)number;
	got = read(descriptor, samples, 64);
}

static void read_in_handler(void)
{
	size_t changed = 0, size = MOST + sysconf(_SC_MINSIGSTKSZ);
	stack_t own = { .ss_sp = stack + ROOM - size, .ss_size = size };
	struct sigaction action = { .sa_handler = handle, .sa_flags = SA_ONSTACK };
	memset(stack, PATTERN, ROOM);
	sigaltstack(&own, NULL);
	sigaction(SIGUSR1, &action, NULL);
	usleep(1000);
	raise(SIGUSR1);
	for (unsigned char *byte = stack; byte < stack + ROOM - size; byte++)
		changed += *byte != PATTERN;
	printf("a handler: read %ld, %zu bytes below its stack\n", got, changed);
}

int main(void)
{
	setvbuf(stdout, NULL, _IOLBF, 0);
	alarm(30);
	stack = mmap(NULL, ROOM, PROT_READ | PROT_WRITE, MAP_PRIVATE | MAP_ANONYMOUS, -1, 0);
	measure_calls(0, CALLS - 1);
	read_in_handler();
	read_in_least();
	measure_calls(CALLS - 1, CALLS);
	return 0;
}

/*
 * The bytes between the device and the program that answers. They go through memory that both processes share, a ring for
 * each direction. Who waits looks at the memory for a moment, and then sleeps at a socket: there a byte wakes it, and there
 * the end of the other process shows.
 *
 * The program knows nothing of it. This library is loaded into it too, and stands there before `read` of its standard input
 * and `write` of its standard output.
 */
#define _GNU_SOURCE
#include "descriptors.h"
#include "device.h"
#include "server.h"
#include <errno.h>
#include <fcntl.h>
#include <sched.h>
#include <signal.h>
#include <stdlib.h>
#include <string.h>
#include <sys/mman.h>
#include <sys/socket.h>
#include <sys/stat.h>
#include <sys/syscall.h>
#include <sys/time.h>
#include <unistd.h>

/* bytes of a ring: a power of two, since its bytes are counted on and on */
#define SIZE (1u << 15)
/* how long memory is looked at before a sleep, in nanoseconds of the wall clock: as long as the answer of a large read takes */
#define MOMENT 200000
/* how often memory is looked at between two looks at the clock, which take as long as some of them */
#define LOOKS 16
/* bytes that move together between processors, and how many of them a message of one sample has at most */
#define LINE 64
#define LINES_OF_A_MESSAGE 2
/* how many waits don't look at it, at most, after one that has looked in vain */
#define LONGEST_PAUSE 255
/* an answer takes microseconds: a program that keeps silent so long is taken for dead. Every second is looked for a signal that
 * ends the client */
#define SECONDS_OF_SILENCE 60

/* An end of a ring: how many bytes went by, whether its process sleeps until the other end moves, and where the other end
 * was when this one looked last. */
struct end {
	_Alignas(LINE) uint32_t passed;
	int sleeps;
	uint32_t seen;
};

struct ring {
	struct end writer, reader;
	_Alignas(LINE) char bytes[SIZE];
};

struct rings {
	struct ring question, answer;
	/* whether an answer can't be waited for any more, and which processor has asked in vain last, counted from 1 */
	int is_over, asking;
	/* the process of the program, or 0 if it isn't known */
	pid_t program;
};

static struct rings *rings;
static struct ring *outgoing, *incoming;
static int channel = -1;
/* how many waits don't look after one that has looked in vain, and how many of them are left */
static unsigned pause_length, pause_left;
/* in the program: whether its standard input and output go this way, and where it may run */
static int stands_for[2];
static cpu_set_t allowed;

static int map(int memory)
{
	void *place = mmap(NULL, sizeof *rings, PROT_READ | PROT_WRITE, MAP_SHARED, memory, 0);
	rings = place == MAP_FAILED ? NULL : place;
	return rings ? 0 : -ENOMEM;
}

/* Makes new rings. Answers the socket and the memory of the program that is to be started. */
int rings_make(int *socket, int *memory)
{
	int pair[2];
	struct timeval silence = { 1, 0 };
	if (channel >= 0)
		syscall(SYS_close, channel);
	channel = -1;
	if (socketpair(AF_UNIX, SOCK_STREAM | SOCK_CLOEXEC, 0, pair))
		return -errno;
	channel = keep_away(pair[0]);
	descriptors_protect(&channel);
	*socket = keep_away(pair[1]);
	*memory = keep_away(memfd_create("comedi-lines", MFD_CLOEXEC));
	setsockopt(channel, SOL_SOCKET, SO_RCVTIMEO, &silence, sizeof silence);
	if (rings)
		munmap(rings, sizeof *rings);
	rings = NULL;
	int result = memory_lengthen(*memory, sizeof *rings);
	if (!result)
		result = map(*memory);
	if (result)
		return result;
	outgoing = &rings->question;
	incoming = &rings->answer;
	return 0;
}

static int is_socket(int descriptor)
{
	struct stat state;
	return !syscall(SYS_fstat, descriptor, &state) && S_ISSOCK(state.st_mode);
}

/* Lets go of the client's standard error, which tells why a program doesn't start, and has told it by now. Who waits for
 * its end waits for the client alone. */
static void leave_standard_error(void)
{
	int nothing = syscall(SYS_openat, AT_FDCWD, "/dev/null", O_WRONLY | O_CLOEXEC);
	if (nothing < 0)
		return;
	syscall(SYS_dup3, nothing, STDERR_FILENO, 0);
	syscall(SYS_close, nothing);
}

/* The program's side. A program that stands between may have another file in place of one of them. */
static void join(void)
{
	const char *memory = getenv(RINGS_VARIABLE);
	for (int i = 0; memory && i < 2; i++)
		if ((stands_for[i] = is_socket(i)))
			channel = i;
	if (!stands_for[0] && !stands_for[1])
		return;
	if (map(atoi(memory))) {
		message("%s=%s isn't the memory of a device", RINGS_VARIABLE, memory);
		_exit(127);
	}
	leave_standard_error();
	outgoing = &rings->answer;
	incoming = &rings->question;
	sched_getaffinity(0, sizeof allowed, &allowed);
}

/* In the program: whether a descriptor is one of them. That is known from its first read on: a script that starts it may
 * have other files there before. */
int rings_stand_for(int descriptor)
{
	static int is_known;
	if (!descriptor && !is_known) {
		is_known = 1;
		join();
	}
	return (descriptor == 0 || descriptor == 1) && stands_for[descriptor];
}

static uint32_t passed(const struct end *end)
{
	return __atomic_load_n(&end->passed, __ATOMIC_SEQ_CST);
}

/* One end moves on, and the other one is woken where it sleeps. A byte that can't be sent has others before it. */
static void move(struct end *own, struct end *other, uint32_t to)
{
	__atomic_store_n(&own->passed, to, __ATOMIC_SEQ_CST);
	if (__atomic_load_n(&other->sleeps, __ATOMIC_SEQ_CST) && __atomic_exchange_n(&other->sleeps, 0, __ATOMIC_SEQ_CST))
		send(channel, "", 1, MSG_NOSIGNAL | MSG_DONTWAIT);
}

/* Notes the process of the program that was started. It may be called in another process, which shares the memory. */
void rings_note_program(pid_t program)
{
	rings->program = program;
}

/* Returns whether a signal waits that ends the client. All signals are blocked during a question. */
static int is_to_end(void)
{
	static const int deadly[] = { SIGHUP, SIGINT, SIGQUIT, SIGTERM };
	struct sigaction action;
	sigset_t waiting;
	sigpending(&waiting);
	for (size_t i = 0; i < sizeof deadly / sizeof *deadly; i++)
		if (sigismember(&waiting, deadly[i]) && !sigaction(deadly[i], NULL, &action) && action.sa_handler == SIG_DFL)
			return 1;
	return 0;
}

/* Returns whether to wait on after a second of silence. A program that keeps silent is ended, with all that it has started. */
static int is_worth_waiting(int seconds)
{
	if (seconds < SECONDS_OF_SILENCE && !is_to_end())
		return 1;
	if (rings->program > 0)
		kill(-rings->program, SIGKILL);
	return 0;
}

/* Sleeps until the other end isn't where it was seen any more, or its process has ended. */
static void sleep_until_moved(struct end *own, const struct end *other, uint32_t seen)
{
	char bytes[64];
	ssize_t count = 1;
	int silent = 0;
	while (count > 0 || (count < 0 && (errno == EINTR || (errno == EAGAIN && is_worth_waiting(++silent))))) {
		__atomic_store_n(&own->sleeps, 1, __ATOMIC_SEQ_CST);
		if (passed(other) != seen)
			break;
		count = recv(channel, bytes, sizeof bytes, 0);
	}
	__atomic_store_n(&own->sleeps, 0, __ATOMIC_SEQ_CST);
}

/* The program keeps off the processor that asks: there it can't answer while the device looks. */
static void keep_apart(void)
{
	static int kept_off;
	cpu_set_t others = allowed;
	if (incoming == &rings->answer)
		rings->asking = sched_getcpu() + 1;
	else if (rings->asking != kept_off) {
		kept_off = rings->asking;
		CPU_CLR(kept_off - 1, &others);
		sched_setaffinity(0, sizeof others, &others);
	}
}

/* Looks some times whether the other end has moved. */
static int has_moved(const struct end *other, uint32_t seen)
{
	for (int i = 0; i < LOOKS; i++, __builtin_ia32_pause())
		if (passed(other) != seen)
			return 1;
	return 0;
}

/* Looks for a moment whether the other end moves. If it doesn't, as on a busy machine or on one processor, most waits
 * don't look. */
static int is_seen_moving(const struct end *other, uint32_t seen)
{
	if (pause_left) {
		pause_left--;
		return 0;
	}
	uint64_t until = 0, now = 0;
	while (now <= until) {
		if (has_moved(other, seen)) {
			pause_length -= pause_length > 0;
			return 1;
		}
		now = time_of_wall();
		until = until ? until : now + MOMENT;
	}
	keep_apart();
	pause_length = pause_length < LONGEST_PAUSE ? 2 * pause_length + 1 : LONGEST_PAUSE;
	pause_left = pause_length;
	return 0;
}

/* Waits until the other end isn't where it was seen any more. Answers whether it is so: its process may have ended. */
static int wait_for(struct end *own, const struct end *other, uint32_t seen)
{
	if (!is_seen_moving(other, seen))
		sleep_until_moved(own, other, seen);
	return passed(other) != seen;
}

static int is_over(void)
{
	return !rings || rings->is_over;
}

static size_t least(size_t one, size_t other, size_t third)
{
	size_t less = one < other ? one : other;
	return less < third ? less : third;
}

/* Reads what is there, once there is anything. Answers how many bytes, or 0 where the other process has ended. */
ssize_t rings_read(char *to, size_t most)
{
	if (is_over())
		return 0;
	struct end *own = &incoming->reader, *other = &incoming->writer;
	uint32_t at = own->passed, place = at % SIZE;
	if (passed(other) == at && !wait_for(own, other, at))
		return 0;
	size_t count = least(most, passed(other) - at, SIZE - place);
	memcpy(to, incoming->bytes + place, count);
	move(own, other, at + count);
	return count;
}

/* Takes the memory of the next message from the processor of the other process, while this one has to wait anyway. */
static void prepare_message(uint32_t at)
{
	for (int i = 0; i < LINES_OF_A_MESSAGE; i++)
		__asm__ volatile("prefetchw %0" : : "m"(outgoing->bytes[(at + i * LINE) % SIZE]));
}

/* Returns for how many bytes there is room, once there is any, or 0 if the other process has ended. Looks at the other end
 * only if that may be too little, since a look takes as long as it takes to hear from another processor. */
static size_t find_room(struct end *own, const struct end *other, size_t wanted)
{
	uint32_t at = own->passed;
	if (at - own->seen + wanted > SIZE)
		own->seen = passed(other);
	if (at - own->seen == SIZE && wait_for(own, other, own->seen))
		own->seen = passed(other);
	return SIZE - (at - own->seen);
}

/* Writes all, once there is room. Returns how many bytes, or -EPIPE if the other process has ended. */
ssize_t rings_write(const char *from, size_t length)
{
	size_t left = length;
	if (is_over())
		return -EPIPE;
	struct end *own = &outgoing->writer, *other = &outgoing->reader;
	for (size_t count; left; from += count, left -= count) {
		uint32_t at = own->passed, place = at % SIZE;
		size_t room = find_room(own, other, left);
		if (!room)
			return -EPIPE;
		count = least(left, room, SIZE - place);
		memcpy(outgoing->bytes + place, from, count);
		move(own, other, at + count);
		prepare_message(at + count);
	}
	return length;
}

/* Whether the program has ended: then nothing is answered any more. */
int server_is_lost(void)
{
	char bytes[64];
	ssize_t count = 1;
	while (!is_over() && count > 0)
		count = recv(channel, bytes, sizeof bytes, MSG_DONTWAIT);
	return count >= 0 || (errno != EAGAIN && errno != EWOULDBLOCK && errno != EINTR);
}

/* Ends the dialogue, for children too, where an answer can't be waited for any more. */
void server_lose(void)
{
	if (rings)
		rings->is_over = 1;
	shutdown(channel, SHUT_RDWR);
}

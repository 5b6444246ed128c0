/*
 * Handlers that are set after the board was opened, by each of the names that do so, and one that a system call has set before.
 * They ask the device in the middle of reads, and of what another thread asks: `handled NAME`. No call waits for itself, no
 * sample is lost, and none comes twice.
 *
 * On wide.board sample k comes at 3,000 + k * 10,000 ns, so 100 of them have the same code, and after 255 codes they start
 * again. Channel 1 has the code 7. The signals come by the system's clock.
 */
#define _GNU_SOURCE
#include "client.h"
#include <pthread.h>
#include <signal.h>
#include <sys/syscall.h>
#include <sys/time.h>

#define SIGNALS 50
#define MICROSECONDS 200

typedef void (*handler_t)(int);
handler_t bsd_signal(int number, handler_t handler);
handler_t sysv_signal(int number, handler_t handler);

static comedi_t *device;
static handler_t (*set_again)(int, handler_t);
static volatile sig_atomic_t signals, failures, is_done;

static void send_soon(void)
{
	setitimer(ITIMER_REAL, &(struct itimerval){ .it_value = { 0, MICROSECONDS } }, NULL);
}

static void ask(int number)
{
	unsigned bits = 0;
	signals++;
	failures += comedi_dio_bitfield2(device, 2, 0, &bits, 0) < 0 || bits;
	if (set_again)
		set_again(number, ask);
	send_soon();
}

static handler_t by_sigaction(int number, handler_t handler)
{
	struct sigaction action = { .sa_handler = handler, .sa_flags = SA_RESTART };
	sigaction(number, &action, NULL);
	return NULL;
}

/* By this a handler of a system call returns to the program. */
void return_from_handler(void);
__asm__(".text\nreturn_from_handler:\n\tmov $15, %rax\n\tsyscall\n");

static handler_t by_system_call(int number, handler_t handler)
{
	struct {
		handler_t handler;
		unsigned long flags;
		void (*restorer)(void);
		unsigned long mask;
	} action = { handler, SA_RESTART | 0x04000000, return_from_handler, 0 };
	syscall(SYS_rt_sigaction, number, &action, NULL, sizeof action.mask);
	return NULL;
}

static const struct {
	const char *name;
	handler_t (*set)(int, handler_t);
	/* whether the handler is gone once it has run, and whether it's set before the board is opened */
	int is_once, is_before;
} setters[] = {
	{ "sigaction", by_sigaction, 0, 0 }, { "signal", signal, 0, 0 }, { "bsd_signal", bsd_signal, 0, 0 },
	{ "sysv_signal", sysv_signal, 1, 0 }, { "system_call", by_system_call, 0, 1 },
};
#define SETTERS (sizeof setters / sizeof *setters)

static void *ask_on(void *unused)
{
	lsampl_t code;
	(void)unused;
	while (!is_done)
		failures += comedi_data_read(device, 0, 1, 0, AREF_GROUND, &code) != 1 || code != 7;
	return NULL;
}

/* Returns how many samples came that aren't the next ones. */
static long read_on(void)
{
	long next = 0, wrong = 0;
	for (sampl_t sample; signals < SIGNALS; next++) {
		if (read(comedi_fileno(device), &sample, sizeof sample) != sizeof sample)
			return -1;
		wrong += sample != next / 100 % 255;
	}
	return wrong;
}

/* Reads samples while signals come, and then values beside another thread. */
static void run(size_t setter)
{
	pthread_t thread;
	lsampl_t code;
	set_again = setters[setter].is_once ? setters[setter].set : NULL;
	if (!setters[setter].is_before)
		setters[setter].set(SIGALRM, ask);
	send_soon();
	report("wrong samples", read_on());
	comedi_cancel(device, 0);
	signals = 0;
	pthread_create(&thread, NULL, ask_on, NULL);
	while (signals < SIGNALS)
		failures += comedi_data_read(device, 0, 1, 0, AREF_GROUND, &code) != 1 || code != 7;
	is_done = 1;
	pthread_join(thread, NULL);
	report("failed calls", failures);
}

int main(int argc, char **argv)
{
	for (size_t i = 0; argc == 2 && i < SETTERS; i++) {
		if (strcmp(setters[i].name, argv[1]))
			continue;
		if (setters[i].is_before)
			setters[i].set(SIGALRM, ask);
		device = open_board();
		report("command", give_command(device, 0, TRIG_NOW, 10000, 0));
		run(i);
		comedi_close(device);
		return 0;
	}
	return 2;
}

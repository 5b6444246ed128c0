/*
 * Signals in the middle of reads: a child sends them one after another, and their handler asks the device, too. No read is
 * cut short, no sample is lost, and none comes twice.
 *
 * On wide.board sample k comes at 3,000 + k * 10,000 ns, so 100 of them have the same code, and after 255 codes they start
 * again. The client reads until 50 signals have come, at most up to the end of the signals, at 10 s.
 */
#include "client.h"
#include <signal.h>
#include <sys/wait.h>

#define SIGNALS 50
#define SAMPLES 16

static comedi_t *device;
static volatile sig_atomic_t signals, failures;

static void ask(int number)
{
	unsigned bits = 0;
	(void)number;
	signals++;
	failures += comedi_dio_bitfield2(device, 2, 0, &bits, 0) < 0 || bits;
}

static pid_t send_signals(void)
{
	pid_t client = getpid(), child = fork();
	while (!child)
		if (kill(client, SIGUSR1))
			_exit(0);
	return child;
}

/* Answers how many samples came that aren't the next ones. */
static long read_on(void)
{
	sampl_t samples[SAMPLES];
	ssize_t got = sizeof samples;
	long next = 0, wrong = 0;
	while (signals < SIGNALS && got > 0) {
		got = read(comedi_fileno(device), samples, sizeof samples);
		for (int i = 0; i < got / (ssize_t)sizeof *samples; i++, next++)
			wrong += samples[i] != next / 100 % 255;
	}
	return got > 0 ? wrong : -1;
}

int main(void)
{
	struct sigaction action = { .sa_handler = ask };
	sigset_t user;
	int status;
	sigemptyset(&user);
	sigaddset(&user, SIGUSR1);
	sigprocmask(SIG_BLOCK, &user, NULL);
	sigaction(SIGUSR1, &action, NULL);
	pid_t child = send_signals();
	device = open_board();
	report("command", give_command(device, 0, TRIG_NOW, 10000, 0));
	sigprocmask(SIG_UNBLOCK, &user, NULL);
	report("wrong samples", read_on());
	kill(child, SIGKILL);
	sigprocmask(SIG_BLOCK, &user, NULL);
	waitpid(child, &status, 0);
	report("failed calls of the handler", failures);
	comedi_close(device);
	return 0;
}

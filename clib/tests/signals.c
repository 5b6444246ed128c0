/*
 * SIGIO, in calls that sleep or wait. On wide.board sample k comes at 3,000 + k * 1,000,000 ns and has the code k.
 *
 * A sleep of 10 ms that starts at 3,000 is ended by sample 1, with 9,000,000 ns left. A pause is ended by sample 2. With
 * the signal blocked a sleep lasts as long as it says; the signal stays pending, and sigsuspend's mask unblocks it.
 *
 * The second command is given at 12,007,000 ns. A read finds its first sample there, 12, and no signal is sent. The next
 * read waits for 13: the signal that comes with it ends the read. A poll waits for 14, and finds it though the signal comes too.
 * A read whose handler restarts it waits for 15 and gets it. If nobody owns the file, nobody gets a signal.
 *
 * The third command is given after 19 ms, so its samples are 19 to 23. Waits for other things, of 10 ms and more, are ended
 * by 20, 21 and 22; the last of them waits for the signal itself.
 */
#define _GNU_SOURCE
#include "client.h"
#include <fcntl.h>
#include <poll.h>
#include <semaphore.h>
#include <signal.h>
#include <time.h>

static volatile sig_atomic_t signals;

static void note(int number)
{
	(void)number;
	signals++;
}

static void report_wait(const char *what, int result)
{
	report(what, result);
	printf("signals: %d\n", signals);
}

/* Waits that aren't for the device. */
static void wait_for_others(comedi_t *device, const sigset_t *io)
{
	const struct timespec time = { 0, 10000000 };
	struct timespec end;
	struct pollfd asked = { .events = POLLIN };
	int ends[2];
	sem_t semaphore;
	sem_init(&semaphore, 0, 0);
	if (pipe(ends) || report("command", give_command(device, 0, TRIG_NOW, MILLISECOND, 5)))
		return;
	asked.fd = ends[0];
	report_wait("poll of a pipe", poll(&asked, 1, 10));
	read_and_print(device, 8);
	clock_gettime(CLOCK_REALTIME, &end);
	end.tv_sec++;
	report_wait("sem_timedwait", sem_timedwait(&semaphore, &end));
	read_and_print(device, 8);
	sigprocmask(SIG_BLOCK, io, NULL);
	report_wait("sigtimedwait", sigtimedwait(io, NULL, &time) == SIGIO ? 0 : -1);
	read_and_print(device, 8);
}

/* Waits for the device itself. */
static void wait_for_samples(comedi_t *device)
{
	struct pollfd asked = { comedi_fileno(device), POLLIN, 0 };
	struct sigaction action = { .sa_handler = note, .sa_flags = SA_RESTART };
	if (report("command", give_command(device, 0, TRIG_NOW, MILLISECOND, 7)))
		return;
	report_wait("samples", read_and_print(device, 1));
	report_wait("samples", read_and_print(device, 1));
	read_and_print(device, 1);
	report_wait("poll", poll(&asked, 1, -1));
	read_and_print(device, 1);
	sigaction(SIGIO, &action, NULL);
	report_wait("samples", read_and_print(device, 1));
	action.sa_flags = 0;
	sigaction(SIGIO, &action, NULL);
	fcntl(comedi_fileno(device), F_SETOWN, 0);
	report_wait("samples", read_and_print(device, 1));
	report_wait("usleep", usleep(3000));
	read_and_print(device, 8);
	read_and_print(device, 8);
	fcntl(comedi_fileno(device), F_SETOWN, getpid());
}

int main(void)
{
	comedi_t *device = open_board();
	struct sigaction action = { .sa_handler = note };
	struct timespec time = { 0, 10000000 }, left = { 0, 0 };
	sigset_t io, none;
	sigemptyset(&none);
	sigemptyset(&io);
	sigaddset(&io, SIGIO);
	sigaction(SIGIO, &action, NULL);
	fcntl(comedi_fileno(device), F_SETOWN, getpid());
	fcntl(comedi_fileno(device), F_SETFL, fcntl(comedi_fileno(device), F_GETFL) | O_ASYNC);
	printf("asynchronous: %s\n", fcntl(comedi_fileno(device), F_GETFL) & O_ASYNC ? "yes" : "no");
	if (report("command", give_command(device, 0, TRIG_NOW, MILLISECOND, 5)))
		return 1;
	report_wait("nanosleep", nanosleep(&time, &left));
	printf("left: %ld\n", left.tv_nsec);
	read_and_print(device, 8);
	report_wait("pause", pause());
	read_and_print(device, 8);
	sigprocmask(SIG_BLOCK, &io, NULL);
	report_wait("usleep", usleep(10000));
	report_wait("sigsuspend", sigsuspend(&none));
	read_and_print(device, 8);
	sigprocmask(SIG_UNBLOCK, &io, NULL);
	read_and_print(device, 8);
	wait_for_samples(device);
	wait_for_others(device, &io);
	comedi_close(device);
	return 0;
}

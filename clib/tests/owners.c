/*
 * Who gets the signal of a file with O_ASYNC: the process or the thread that F_SETOWN or F_SETOWN_EX names, also while another
 * thread waits for samples, and nobody if the owner is 0.
 *
 * On wide.board a scan takes 1 ms, and the first sample is there at once. So a command of ten samples sends nine signals.
 */
#define _GNU_SOURCE
#include "client.h"
#include <fcntl.h>
#include <poll.h>
#include <pthread.h>
#include <signal.h>

#define SAMPLES 10

static comedi_t *device;
static int descriptor;
static pthread_t beside;
static volatile sig_atomic_t taken, handled, handled_by_first, is_right;
static volatile pid_t other;
static long result;
static int error;

/* Takes signals, as a thread does that is there for them. It ends with SIGUSR2. */
static void *take_signals(void *argument)
{
	sigset_t set;
	siginfo_t information;
	sigemptyset(&set);
	sigaddset(&set, SIGIO);
	sigaddset(&set, SIGUSR2);
	while (sigwaitinfo(&set, &information) == SIGIO) {
		taken++;
		is_right = information.si_fd == descriptor && information.si_band == (POLLIN | POLLRDNORM);
	}
	return argument;
}

/* Reads the sample that is there, and then all others in one call that waits. Returns their bytes. */
static long read_samples(void)
{
	sampl_t samples[SAMPLES];
	long bytes = read(descriptor, samples, sizeof samples);
	return bytes < 0 ? bytes : read(descriptor, samples, sizeof samples);
}

/* Reads all samples, and lets the other threads come to a rest. */
static void read_all(const char *name)
{
	taken = handled = handled_by_first = is_right = 0;
	give_command(device, 0, TRIG_NOW, MILLISECOND, SAMPLES);
	long bytes = read_samples();
	usleep(1);
	printf("%s: %ld bytes, %d signals taken%s\n", name, bytes, taken, is_right ? ", by the file's number" : "");
	comedi_cancel(device, 0);
}

static void wait_for_signals(void)
{
	sigset_t set;
	sigemptyset(&set);
	sigaddset(&set, SIGIO);
	sigaddset(&set, SIGUSR2);
	pthread_sigmask(SIG_BLOCK, &set, NULL);
	pthread_create(&beside, NULL, take_signals, NULL);
	fcntl(descriptor, F_SETOWN, getpid());
	read_all("the process");
	fcntl(descriptor, F_SETOWN, 0);
	read_all("nobody");
	fcntl(descriptor, F_SETOWN, -getpgrp());
	read_all("the group");
	fcntl(descriptor, F_SETOWN, 0);
	pthread_kill(beside, SIGUSR2);
	pthread_join(beside, NULL);
	pthread_sigmask(SIG_UNBLOCK, &set, NULL);
}

static void handle(int number, siginfo_t *information, void *context)
{
	(void)number;
	(void)context;
	handled++;
	handled_by_first += gettid() == getpid();
	is_right = information->si_fd == descriptor;
}

static void *sleep_beside(void *argument)
{
	other = gettid();
	result = usleep(500000);
	error = errno;
	return argument;
}

static void *read_beside(void *argument)
{
	result = read_samples();
	error = errno;
	return argument;
}

static void report_beside(const char *name)
{
	printf("%s: %ld%s%s, %d signals, %d of them to the first thread%s\n", name, result, result < 0 ? " " : "",
		result < 0 ? strerror(error) : "", handled, handled_by_first, is_right ? ", by the file's number" : "");
}

/* A thread that sleeps is named, and its sleep is ended. */
static void name_thread(void)
{
	struct f_owner_ex owner = { .type = F_OWNER_TID };
	pthread_create(&beside, NULL, sleep_beside, NULL);
	usleep(1);
	owner.pid = other;
	fcntl(descriptor, F_SETOWN_EX, &owner);
	handled = handled_by_first = 0;
	give_command(device, 0, TRIG_NOW, MILLISECOND, 2);
	usleep(5000);
	pthread_join(beside, NULL);
	report_beside("a thread that sleeps");
	comedi_cancel(device, 0);
}

/* A thread reads, and the first one sleeps: the process gets the signal in the first one. */
static void name_process(void)
{
	fcntl(descriptor, F_SETOWN, getpid());
	handled = handled_by_first = 0;
	give_command(device, 0, TRIG_NOW, MILLISECOND, SAMPLES);
	pthread_create(&beside, NULL, read_beside, NULL);
	for (int i = 1; i < SAMPLES; i++)
		report("a sleep of the first thread", usleep(100000));
	pthread_join(beside, NULL);
	report_beside("a thread that reads");
	comedi_cancel(device, 0);
}

int main(void)
{
	struct sigaction action = { .sa_sigaction = handle, .sa_flags = SA_SIGINFO };
	device = open_board();
	descriptor = comedi_fileno(device);
	fcntl(descriptor, F_SETFL, fcntl(descriptor, F_GETFL) | O_ASYNC);
	wait_for_signals();
	fcntl(descriptor, F_SETSIG, SIGUSR1);
	sigaction(SIGUSR1, &action, NULL);
	name_thread();
	name_process();
	comedi_close(device);
	return 0;
}

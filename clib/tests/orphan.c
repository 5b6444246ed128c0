/*
 * A child that is killed within a call: the program of answers keeps silent (tests/dying), so the child waits for an
 * answer that doesn't come. What the client asks after that can't be answered any more, and fails with EIO at once.
 */
#define _GNU_SOURCE
#include "client.h"
#include <signal.h>
#include <sys/syscall.h>
#include <sys/wait.h>
#include <time.h>

int main(void)
{
	comedi_t *device = open_board();
	struct timespec while_it_waits = { 0, 500000000 };
	sampl_t sample;
	if (report("command", give_command(device, 0, TRIG_NOW, MILLISECOND, 0)))
		return 1;
	fflush(stdout);
	pid_t child = fork();
	while (!child)
		if (read(comedi_fileno(device), &sample, sizeof sample) < 0)
			_exit(1);
	/* a wait in the system's time, past the names of the C library: theirs are in the board's */
	syscall(SYS_nanosleep, &while_it_waits, NULL);
	int status = 0;
	kill(child, SIGKILL);
	waitpid(child, &status, 0);
	printf("the child was %s\n", WIFSIGNALED(status) ? "killed" : "not killed");
	report("read", read(comedi_fileno(device), &sample, sizeof sample));
	report("lock", comedi_lock(device, 0));
	comedi_close(device);
	return 0;
}

/*
 * Children with a file of their own that end while their command runs, each in another way: the file is closed and the
 * command cancelled, as by the kernel. A child's child goes on with the file of one that has ended.
 *
 * On wide.board a sample has the code of its millisecond. Each child gives a command of 100 samples, locks the output and
 * reads the first sample, in the first millisecond. Then the client can give a command and lock the output. The child's
 * child reads the second sample, which came a millisecond later.
 */
#define _GNU_SOURCE
#include "client.h"
#include <signal.h>
#include <sys/wait.h>

static void end_by(int how)
{
	int ends[2];
	char byte;
	fflush(stdout);
	if (how == 0)
		exit(0);
	if (how == 1)
		_exit(0);
	if (how == 2)
		raise(SIGKILL);
	/* the child's child waits until its parent has ended, which is the end of the pipe */
	if (pipe(ends) || fork())
		_exit(0);
	close(ends[1]);
	if (read(ends[0], &byte, 1) == 0)
		return;
	_exit(1);
}

static void run_child(int how)
{
	comedi_t *own = open_board();
	report("the child's command", give_command(own, 0, TRIG_NOW, MILLISECOND, 100));
	report("its lock", comedi_lock(own, 1));
	read_and_print(own, 1);
	end_by(how);
	usleep(1000);
	read_and_print(own, 1);
	fflush(stdout);
	_exit(0);
}

static void run(comedi_t *device, int how)
{
	siginfo_t information;
	int status;
	fflush(stdout);
	pid_t child = fork();
	if (!child)
		run_child(how);
	/* one that is killed stays a zombie, as long as the client doesn't wait for it */
	if (how == 2)
		waitid(P_PID, child, &information, WEXITED | WNOWAIT);
	else
		waitpid(child, &status, 0);
	report("a command", give_command(device, 0, TRIG_NOW, MILLISECOND, 1));
	report("a lock", comedi_lock(device, 1));
	comedi_unlock(device, 1);
	comedi_cancel(device, 0);
}

/* The child's child has the pipe's end, too. */
static void run_grandchild(void)
{
	int ends[2];
	char byte;
	fflush(stdout);
	if (pipe(ends))
		return;
	if (!fork())
		run_child(3);
	close(ends[1]);
	while (read(ends[0], &byte, 1) > 0)
		;
}

int main(void)
{
	comedi_t *device = open_board();
	for (int how = 0; how < 3; how++)
		run(device, how);
	run_grandchild();
	comedi_close(device);
	return 0;
}

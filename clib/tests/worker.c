/*
 * A server that opens the board, makes a worker for it and closes its own descriptor: the file stays open until the worker
 * has closed it, too, or has ended. A worker that runs another program keeps it if that gets the descriptor.
 *
 * On wide.board a sample has the code of its millisecond, and a worker reads three of them in two milliseconds. The file
 * holds a lock, so that another one can't have it.
 */
#define _GNU_SOURCE
#include "client.h"
#include <fcntl.h>
#include <signal.h>
#include <sys/wait.h>

static int ends[2];

/* Waits until the server has closed its descriptor. */
static void wait_for_server(void)
{
	char byte;
	close(ends[1]);
	if (read(ends[0], &byte, 1) != 0)
		_exit(1);
}

static void read_all(comedi_t *device)
{
	wait_for_server();
	read_and_print(device, 2);
	read_and_print(device, 2);
	fflush(stdout);
}

/* What the worker does at its end. */
static void end_by(comedi_t *device, int how)
{
	if (how == 0)
		comedi_close(device);
	if (how == 1)
		raise(SIGKILL);
	if (how == 2) {
		fcntl(comedi_fileno(device), F_SETFD, 0);
		execlp("sleep", "sleep", "1", NULL);
	}
	_exit(0);
}

static void try_board(const char *when)
{
	comedi_t *device = open_board();
	printf("%s: the lock %s\n", when, comedi_lock(device, 0) < 0 ? strerror(errno) : "is free");
	comedi_close(device);
}

static void run(int how)
{
	comedi_t *device = open_board();
	if (pipe(ends) || comedi_lock(device, 0) < 0 || give_command(device, 0, TRIG_NOW, MILLISECOND, 4) < 0)
		return;
	fflush(stdout);
	pid_t worker = fork();
	if (!worker) {
		read_all(device);
		end_by(device, how);
	}
	comedi_close(device);
	try_board("while it works");
	close(ends[0]);
	close(ends[1]);
	waitpid(worker, NULL, 0);
	try_board("after it");
}

int main(void)
{
	/* the board stays the same */
	comedi_t *device = open_board();
	for (int how = 0; how < 3; how++)
		run(how);
	comedi_close(device);
	return 0;
}

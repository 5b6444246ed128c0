/*
 * A client and its child on one board: the child reads first, and the client goes on where the child left off. Then both
 * read a sample each in turns.
 *
 * On wide.board sample k has the code k. A read takes what is there, so the child's first one gets sample 0, which came
 * with the command. A read that finds nothing waits until all four that it asks for are there, and the last one of the
 * eight samples' reads until the command has ended.
 */
#include "client.h"
#include <sys/wait.h>

/* Reads so many samples, each once a byte has come, and then sends one. */
static void take_turns(comedi_t *device, int turns, int from, int to)
{
	char byte;
	while (turns-- && read(from, &byte, 1) == 1) {
		read_and_print(device, 1);
		fflush(stdout);
		if (write(to, &byte, 1) != 1)
			return;
	}
}

static void read_in_turns(comedi_t *device)
{
	int mine[2], its[2];
	if (pipe(mine) || pipe(its) || write(mine[1], "", 1) != 1 || report("command", give_command(device, 0, TRIG_NOW, MILLISECOND, 8)))
		return;
	fflush(stdout);
	if (!fork()) {
		take_turns(device, 4, its[0], mine[1]);
		_exit(0);
	}
	take_turns(device, 4, mine[0], its[1]);
	wait(NULL);
}

int main(void)
{
	comedi_t *device = open_board();
	if (report("command", give_command(device, 0, TRIG_NOW, MILLISECOND, 8)))
		return 1;
	fflush(stdout);
	pid_t child = fork();
	if (!child) {
		read_and_print(device, 4);
		read_and_print(device, 4);
		fflush(stdout);
		_exit(7);
	}
	int status = 0;
	if (waitpid(child, &status, 0) != child || WEXITSTATUS(status) != 7)
		printf("the child failed: %x\n", status);
	while (read_and_print(device, 4) > 0)
		;
	read_in_turns(device);
	comedi_close(device);
	return 0;
}

/*
 * A child that is made while another thread opens the board, whose program of answers takes a second to start: the child
 * opens it, too, and reads a value.
 */
#define _GNU_SOURCE
#include "client.h"
#include <pthread.h>
#include <sys/syscall.h>
#include <sys/wait.h>
#include <time.h>

static void *open_it(void *argument)
{
	open_board();
	return argument;
}

int main(void)
{
	pthread_t thread;
	struct timespec while_it_opens = { 0, 300000000 };
	lsampl_t code = 0;
	int status = 0;
	pthread_create(&thread, NULL, open_it, NULL);
	syscall(SYS_nanosleep, &while_it_opens, NULL);
	pid_t child = fork();
	if (!child) {
		alarm(10);
		comedi_t *device = open_board();
		report("a value", comedi_data_read(device, 0, 1, 0, AREF_GROUND, &code));
		return code;
	}
	waitpid(child, &status, 0);
	pthread_join(thread, NULL);
	printf("the child: %d\n", WIFEXITED(status) ? WEXITSTATUS(status) : -WTERMSIG(status));
	return 0;
}

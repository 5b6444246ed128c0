/*
 * Makes an input for the fuzzer from a real dialogue: `seeds COMEDI_SERVE BOARD LETTERS`. The calls of the letters are made to
 * comedi_serve on a board's text, up to its line `session`. The letters and all that is answered go to standard output.
 */
#define _GNU_SOURCE
#include "calls.h"
#include "device.h"
#include "server.h"
#include <errno.h>
#include <fcntl.h>
#include <stdio.h>
#include <stdlib.h>
#include <string.h>
#include <sys/wait.h>
#include <unistd.h>

static int questions = -1, answers = -1;

/* Gives the library a line that is answered, and prints it. */
ssize_t rings_read(char *to, size_t most)
{
	size_t count = 0;
	while (count < most && read(answers, to + count, 1) == 1)
		if (to[count++] == '\n')
			break;
	fwrite(to, 1, count, stdout);
	return count;
}

ssize_t rings_write(const char *from, size_t length)
{
	return write(questions, from, length) == (ssize_t)length ? (ssize_t)length : -EPIPE;
}

int server_is_lost(void)
{
	return 0;
}

void server_lose(void)
{
}

int rings_make(int *socket, int *memory)
{
	*socket = *memory = -1;
	return -1;
}

static void start(char *program)
{
	int to[2], from[2];
	if (pipe2(to, O_CLOEXEC) || pipe2(from, O_CLOEXEC))
		exit(1);
	if (!fork()) {
		dup2(to[0], 0);
		dup2(from[1], 1);
		execl(program, program, NULL);
		_exit(127);
	}
	close(to[0]);
	close(from[1]);
	questions = to[1];
	answers = from[0];
}

int main(int argc, char **argv)
{
	struct text text = { 0 };
	if (argc != 4 || text_read(argv[2], &text))
		return 1;
	start(argv[1]);
	rings_write(text.bytes, text.length);
	free(text.bytes);
	printf("%s\n", argv[3]);
	if (calls_begin())
		return 1;
	for (const char *letter = argv[3]; *letter; letter++)
		calls_make(*letter);
	calls_end();
	close(questions);
	wait(NULL);
	return 0;
}

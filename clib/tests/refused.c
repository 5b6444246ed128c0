/*
 * A board that is refused, opened again and again: `refused`. Its program of answers has ended each time, and leaves no
 * child and no signal.
 */
#include "client.h"
#include <signal.h>
#include <sys/wait.h>

static volatile sig_atomic_t signals;

static void note(int number)
{
	(void)number;
	signals++;
}

int main(void)
{
	signal(SIGCHLD, note);
	for (int i = 0; i < 3; i++) {
		comedi_t *device = comedi_open("/dev/comedi0");
		report("open", device ? 0 : -1);
	}
	report("a child", waitpid(-1, NULL, WNOHANG));
	printf("signals: %d\n", signals);
	return 0;
}

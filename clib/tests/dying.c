/*
 * Answers as the program that DYING_CORE names does, but for DYING_LINES lines alone, the board's text with them. Then it
 * ends, or with DYING_SILENTLY keeps silent up to the client's end.
 */
#include <stdlib.h>
#include <sys/wait.h>
#include <unistd.h>

int main(void)
{
	const char *core = getenv("DYING_CORE");
	int lines = atoi(getenv("DYING_LINES")), ends[2];
	char byte;
	if (pipe(ends))
		return 1;
	if (!fork()) {
		dup2(ends[0], 0);
		close(ends[1]);
		execl(core, core, NULL);
		_exit(127);
	}
	close(ends[0]);
	while (lines && read(0, &byte, 1) == 1) {
		if (write(ends[1], &byte, 1) != 1)
			break;
		lines -= byte == '\n';
	}
	close(ends[1]);
	wait(NULL);
	while (getenv("DYING_SILENTLY") && read(0, &byte, 1) == 1)
		;
	return 0;
}

/*
 * A logger that sleeps to a full second of the date and reads then. If the date is set (ZENDROUZ_START) it does the same
 * in each run. On wide.board the code is the millisecond modulo 255, and the calls up to there take no whole millisecond:
 * 5 s after the start, which is at a full minute, it is 5,000 % 255 = 155.
 */
#include "client.h"
#include <time.h>

static void show(const char *what, time_t time)
{
	char text[32];
	strftime(text, sizeof text, "%Y-%m-%dT%H:%M:%SZ", gmtime(&time));
	printf("%s: %s\n", what, text);
}

int main(void)
{
	comedi_t *device = open_board();
	lsampl_t code = 0;
	struct timespec end;
	show("opened", time(NULL));
	clock_gettime(CLOCK_REALTIME, &end);
	end.tv_sec += 5 - end.tv_sec % 5;
	end.tv_nsec = 0;
	clock_nanosleep(CLOCK_REALTIME, TIMER_ABSTIME, &end, NULL);
	show("slept", time(NULL));
	comedi_data_read(device, 0, 0, 0, AREF_GROUND, &code);
	printf("the code: %u\n", code);
	comedi_close(device);
	return 0;
}

/*
 * A client that goes on after the end of the signals, which on small.board is at 1 s: there channel 0 has the code of
 * 1,000 ms of a period of 255, which is 235, and keeps it. The client's clock goes on.
 */
#include "client.h"
#include <time.h>

static long microseconds(void)
{
	struct timespec time;
	clock_gettime(CLOCK_MONOTONIC, &time);
	return time.tv_sec * 1000000 + time.tv_nsec / 1000;
}

static void report_code(comedi_t *device)
{
	lsampl_t code = 0;
	comedi_data_read(device, 0, 0, 0, AREF_GROUND, &code);
	report("code", code);
}

int main(void)
{
	comedi_t *device = open_board();
	long start = microseconds();
	usleep(2000000);
	report("microseconds of a sleep of 2 s", microseconds() - start);
	report_code(device);
	start = microseconds();
	while (microseconds() < start + 5000)
		;
	report("microseconds of a loop of 5 ms", microseconds() - start - 1);
	usleep(100000);
	report_code(device);
	comedi_close(device);
	return 0;
}

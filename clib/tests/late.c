/*
 * A client that sleeps too long, and loses its sample.
 *
 * On small.board sample k comes at 3,000 + k * 1,000,000 ns, since each call takes 1,000 ns and the command is the third:
 * comedi_open asks the time of day twice. The code of sample k is k.
 *
 *   sleep  2.5 ms to  2,503,000, read at  2,504,000: samples 0, 1, 2
 *   sleep  2.5 ms to  5,004,000, read at  5,005,000: samples 3, 4, 5
 *   sleep 20.0 ms to 25,005,000, read at 25,006,000: the buffer holds 8, so 6 to 13 are there; 14 found no room
 *   sleep  2.5 ms, read: EPIPE
 */
#include "client.h"

int main(void)
{
	comedi_t *device = open_board();
	int total = 0, count = 0;
	if (report("command", give_command(device, 0, TRIG_NOW, MILLISECOND, 100)))
		return 1;
	for (int turn = 0; count >= 0; turn++) {
		usleep(turn == 2 ? 20000 : 2500);
		count = read_and_print(device, 64);
		total += count > 0 ? count : 0;
	}
	printf("after %d samples\n", total);
	comedi_close(device);
	return 0;
}

/*
 * An output whose buffer is mapped: six words, then four more that go round its end.
 *
 * On wide.board the buffer holds 8 words. The command is called at 3,000 ns, six words are marked at 4,000, and the
 * trigger is given at 5,000: word k goes out at 5,000 + k * 1,000,000. At 3,506,000 the words 0 to 3 are out, and 2 are
 * left. The next four lie in the places 6, 7, 0 and 1. 20 ms later all ten are out and the command of ten scans has
 * ended: nothing is left, and what is asked after that is EINVAL.
 */
#include "client.h"
#include <sys/mman.h>

#define PLACES 8

int main(void)
{
	comedi_t *device = open_board();
	if (report("command", give_command(device, 1, TRIG_INT, MILLISECOND, 10)))
		return 1;
	sampl_t *words = mmap(NULL, PLACES * sizeof *words, PROT_READ | PROT_WRITE, MAP_SHARED, comedi_fileno(device), 0);
	if (report("map", words == MAP_FAILED ? -1 : 0))
		return 1;
	for (int i = 0; i < 6; i++)
		words[i] = 10 * (i + 1);
	report("mark 6", comedi_mark_buffer_written(device, 1, 6 * sizeof *words));
	report("trigger", comedi_internal_trigger(device, 1, 0));
	usleep(3500);
	report("left", comedi_get_buffer_contents(device, 1));
	for (int i = 6; i < 10; i++)
		words[i % PLACES] = 10 * (i + 1);
	report("mark 4", comedi_mark_buffer_written(device, 1, 4 * sizeof *words));
	report("left", comedi_get_buffer_contents(device, 1));
	usleep(20000);
	report("left", comedi_get_buffer_contents(device, 1));
	if (comedi_get_buffer_contents(device, 1) < 0)
		printf("after the end: %s\n", comedi_strerror(comedi_errno()));
	comedi_close(device);
	return 0;
}

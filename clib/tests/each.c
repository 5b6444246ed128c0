/*
 * Each call of the device once. Where the program of answers ends in the middle (tests/dying), each call from then on fails
 * with EIO, and none waits.
 *
 * On wide.board sample k of the input comes at 3,000 + k * 1,000,000 ns, and the output has room for 8 words.
 */
#define _GNU_SOURCE
#include "client.h"
#include <fcntl.h>
#include <poll.h>
#include <signal.h>
#include <sys/epoll.h>
#include <sys/mman.h>
#include <sys/select.h>
#include <sys/uio.h>

static comedi_t *device;
static int descriptor;

static void say(const char *what, long result)
{
	if (result >= 0)
		printf("%s: %ld\n", what, result);
	else
		printf("%s: %s\n", what, strerror(errno));
}

static void note(int number)
{
	(void)number;
}

static void read_samples(void)
{
	sampl_t samples[4];
	struct iovec pieces[2] = { { samples, 2 }, { samples + 1, 2 } };
	say("command", give_command(device, 0, TRIG_NOW, MILLISECOND, 0));
	say("read", read(descriptor, samples, 2));
	say("read that waits", read(descriptor, samples, 4));
	say("readv", readv(descriptor, pieces, 2));
	say("contents", comedi_get_buffer_contents(device, 0));
	say("offset", comedi_get_buffer_offset(device, 0));
	say("mark", comedi_mark_buffer_read(device, 0, 2));
	say("COMEDI_POLL", comedi_poll(device, 0));
	say("size", comedi_get_buffer_size(device, 0));
	int flags = comedi_get_subdevice_flags(device, 0);
	say("flags", flags < 0 ? -1 : (flags & SDF_BUSY) != 0);
}

static void wait_for_samples(void)
{
	struct pollfd asked = { descriptor, POLLIN, 0 };
	struct epoll_event event = { .events = EPOLLIN };
	struct timeval time = { 1, 0 };
	sampl_t sample;
	fd_set reads;
	int set = epoll_create1(0);
	FD_ZERO(&reads);
	FD_SET(descriptor, &reads);
	say("poll", poll(&asked, 1, -1));
	say("read", read(descriptor, &sample, 2));
	say("select", select(descriptor + 1, &reads, NULL, NULL, &time));
	say("read", read(descriptor, &sample, 2));
	epoll_ctl(set, EPOLL_CTL_ADD, descriptor, &event);
	say("epoll_wait", epoll_wait(set, &event, 1, -1));
	close(set);
	fcntl(descriptor, F_SETFL, O_ASYNC);
	usleep(2000);
	fcntl(descriptor, F_SETFL, 0);
}

static void map_samples(void)
{
	void *map = mmap(NULL, 4096, PROT_READ, MAP_SHARED, descriptor, 0);
	sampl_t sample;
	say("mmap", map == MAP_FAILED ? -1 : 0);
	say("contents", comedi_get_buffer_contents(device, 0) < 0 ? -1 : 0);
	say("mark", comedi_mark_buffer_read(device, 0, 2));
	say("read", read(descriptor, &sample, 2));
	say("cancel", comedi_cancel(device, 0));
}

static void instruct(void)
{
	lsampl_t code = 0;
	unsigned bits = 0;
	struct timeval time;
	say("data_read", comedi_data_read(device, 0, 1, 0, AREF_GROUND, &code));
	say("data_write", comedi_data_write(device, 1, 0, 0, AREF_GROUND, 5));
	say("dio_config", comedi_dio_config(device, 2, 0, COMEDI_OUTPUT));
	say("dio_get_config", comedi_dio_get_config(device, 2, 0, &bits));
	say("dio_write", comedi_dio_write(device, 2, 0, 1));
	say("bitfield2", comedi_dio_bitfield2(device, 2, 0, &bits, 0));
	say("lock", comedi_lock(device, 1));
	say("unlock", comedi_unlock(device, 1));
	comedi_insn one[2] = { { .insn = INSN_GTOD, .n = 2, .data = (lsampl_t *)&time }, { .insn = INSN_WAIT, .n = 1, .data = &code } };
	comedi_insnlist list = { 2, one };
	code = 1000;
	say("insnlist", comedi_do_insnlist(device, &list));
}

static void write_words(void)
{
	static const sampl_t words[12];
	comedi_cmd command = { .subdev = 1 };
	say("source mask", comedi_get_cmd_src_mask(device, 1, &command));
	say("generic", comedi_get_cmd_generic_timed(device, 1, &command, 1, MILLISECOND));
	comedi_set_write_subdevice(device, 1);
	say("command", give_command(device, 1, TRIG_INT, MILLISECOND, 0));
	say("write", write(descriptor, words, 12));
	say("trigger", comedi_internal_trigger(device, 1, 0));
	say("mark", comedi_mark_buffer_written(device, 1, 4));
	say("write that waits", write(descriptor, words, 2));
	say("cancel", comedi_cancel(device, 1));
}

int main(void)
{
	device = open_board();
	descriptor = dup(comedi_fileno(device));
	signal(SIGIO, note);
	read_samples();
	wait_for_samples();
	map_samples();
	instruct();
	write_words();
	close(descriptor);
	comedi_close(device);
	device = comedi_open("/dev/comedi0");
	say("open", device ? 0 : -1);
	return 0;
}

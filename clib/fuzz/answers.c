/*
 * Hears answers of comedi_serve as a fuzzer makes them up: the whole way from the bytes to the client's structs. Nothing that
 * is answered may end the client, or make the library write where it mustn't.
 *
 * An input is a line of letters, one for each call of a client (calls.h), and behind it all that is answered, up to the end of
 * the input. The first question is the one for the board. A `1` before the letters has the answers come byte by byte.
 */
#define _GNU_SOURCE
#include "calls.h"
#include "device.h"
#include "server.h"
#include <string.h>

/* so many calls are made at most, so that an input takes no longer than milliseconds */
#define MOST_CALLS 64

static const uint8_t *answers, *end;
static size_t piece;
static int is_lost;

/* Gives the library what is answered: one line at a time, since nothing comes behind a whole answer before it is asked for. */
ssize_t rings_read(char *to, size_t most)
{
	const uint8_t *feed = memchr(answers, '\n', end - answers);
	size_t there = (feed ? feed + 1 : end) - answers, count = there < most ? there : most;
	count = count < piece ? count : piece;
	memcpy(to, answers, count);
	answers += count;
	return count;
}

ssize_t rings_write(const char *from, size_t length)
{
	(void)from;
	return is_lost ? -1 : (ssize_t)length;
}

int server_is_lost(void)
{
	return is_lost;
}

void server_lose(void)
{
	is_lost = 1;
}

/* No program is started here. */
int rings_make(int *socket, int *memory)
{
	*socket = *memory = -1;
	return -1;
}

int LLVMFuzzerTestOneInput(const uint8_t *data, size_t size);
int LLVMFuzzerTestOneInput(const uint8_t *data, size_t size)
{
	const uint8_t *letters = data, *feed = size ? memchr(data, '\n', size) : NULL;
	if (!feed)
		return 0;
	answers = feed + 1;
	end = data + size;
	piece = SIZE_MAX;
	is_lost = 0;
	if (*letters == '1') {
		piece = 1;
		letters++;
	}
	if (calls_begin())
		return 0;
	for (int i = 0; letters < feed && i < MOST_CALLS; letters++, i++)
		calls_make(*letters);
	calls_end();
	return 0;
}

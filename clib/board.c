/*
 * What the board says of itself, and the questions about it: which subdevices, channels and ranges there are. They
 * change nothing and take no time.
 */
#define _GNU_SOURCE
#include "device.h"
#include "server.h"
#include <errno.h>
#include <inttypes.h>
#include <stdio.h>
#include <stdlib.h>
#include <string.h>

/* the numbers of the longest line: a channel's greatest code, and all its ranges */
#define MOST_NUMBERS (1 + 3 * MOST_RANGES)

/* how many channels of the last subdevice haven't had their line */
static unsigned missing;

/* A subdevice: its kind, its flags, its channels, its longest list, and its buffer. */
static void start_subdevice(const long *numbers)
{
	if (device->subdevices == MOST_SUBDEVICES || numbers[2] < 0 || numbers[2] > MOST_CHANNELS)
		return;
	struct subdevice *s = &device->subdevice[device->subdevices++];
	s->kind = numbers[0];
	s->flags = numbers[1];
	s->channels = missing = numbers[2];
	s->list_length = numbers[3];
	s->buffer = numbers[4];
	s->sample_bytes = s->flags & SDF_LSAMPL ? sizeof(lsampl_t) : sizeof(sampl_t);
	scans_begin(s, 1, 0, 0);
}

/* One of its channels: its greatest code, and three numbers for each range. */
static void set_channel(struct channel *c, const long *numbers, unsigned ranges)
{
	c->maxdata = numbers[0];
	c->ranges = ranges;
	for (unsigned i = 0; i < ranges; i++) {
		const long *range = numbers + 1 + 3 * i;
		c->range[i] = (comedi_krange){ .min = range[0], .max = range[1], .flags = range[2] };
	}
}

/* A line of the answer: numbers alone. */
static void read_line(char *line)
{
	static long numbers[MOST_NUMBERS];
	unsigned count = 0;
	memset(numbers, 0, sizeof numbers);
	for (char *end; count < MOST_NUMBERS; line = end, count++) {
		numbers[count] = strtol(line, &end, 10);
		if (end == line)
			break;
	}
	if (!missing) {
		start_subdevice(numbers);
		return;
	}
	struct subdevice *s = &device->subdevice[device->subdevices - 1];
	set_channel(&s->channel[s->channels - missing--], numbers, count / 3);
}

/* Asks for the board's subdevices, its name, and the last time of its signals. */
int board_ask(void)
{
	memset(device->subdevice, 0, sizeof device->subdevice);
	device->subdevices = missing = 0;
	int result = question_untimed("subdevices", "", read_line);
	if (!result && sscanf(answer_words(), "%63s %" SCNu64, device->name, &device->horizon) != 2)
		return -EIO;
	return result;
}

int board_is_input(const struct subdevice *s)
{
	return s->kind == COMEDI_SUBD_AI || s->kind == COMEDI_SUBD_DI;
}

int board_is_digital(const struct subdevice *s)
{
	return s->kind == COMEDI_SUBD_DI || s->kind == COMEDI_SUBD_DO || s->kind == COMEDI_SUBD_DIO;
}

/* Who has a subdevice: the file that holds its lock, and the one that called its command, until its end is reported. */
struct claim {
	int holder, runner;
};

/* Asks for the claims on all subdevices. Where there is no answer nobody has any. */
static void ask_claims(struct claim *claims)
{
	int result = question_untimed("claims", "", NULL);
	const char *at = answer_words();
	for (unsigned i = 0; i < device->subdevices; i++) {
		claims[i].holder = result ? NO_FILE : strtol(at, (char **)&at, 10);
		claims[i].runner = result ? NO_FILE : strtol(at, (char **)&at, 10);
	}
}

/* Puts for each subdevice the file that called its command, or NO_FILE. */
void board_runners(int *runners)
{
	struct claim claims[MOST_SUBDEVICES];
	ask_claims(claims);
	for (unsigned i = 0; i < device->subdevices; i++)
		runners[i] = claims[i].runner;
}

int board_runner(unsigned number)
{
	int runners[MOST_SUBDEVICES];
	if (number >= device->subdevices)
		return NO_FILE;
	board_runners(runners);
	return runners[number];
}

/* Who has the subdevice, and whether its command still runs: as long as more than any buffer holds is awaited. */
static unsigned present_flags(int file, int number, const struct claim *c)
{
	unsigned flags = 0;
	uint64_t end;
	if (c->holder != NO_FILE)
		flags |= SDF_LOCKED | (c->holder == file ? SDF_LOCK_OWNER : 0);
	if (c->runner == NO_FILE)
		return flags;
	flags |= SDF_BUSY | (c->runner == file ? SDF_BUSY_OWNER : 0);
	if (!question_await(c->runner, number, UINT32_MAX) && answer_numbers(&end, 1) && end > device->now)
		flags |= SDF_RUNNING;
	return flags;
}

int board_subdevices(int file, comedi_subdinfo *to)
{
	static comedi_subdinfo all[MOST_SUBDEVICES];
	struct claim claims[MOST_SUBDEVICES];
	memset(all, 0, sizeof all);
	ask_claims(claims);
	for (unsigned i = 0; i < device->subdevices; i++) {
		const struct subdevice *s = &device->subdevice[i];
		all[i].type = s->kind;
		all[i].n_chan = s->channels;
		all[i].subd_flags = s->flags | present_flags(file, i, &claims[i]);
		all[i].timer_type = 5;	/* nanoseconds */
		all[i].len_chanlist = s->list_length;
		all[i].maxdata = s->flags & SDF_MAXDATA ? 0 : s->channel[0].maxdata;
		all[i].range_type = s->flags & SDF_RANGETYPE ? 0 : i << 24 | s->channel[0].ranges;
		all[i].insn_bits_support = board_is_digital(s) ? COMEDI_SUPPORTED : COMEDI_UNSUPPORTED;
	}
	return copy_out(to, all, device->subdevices * sizeof *all);
}

int board_channels(const comedi_chaninfo *asked)
{
	if (asked->subdev >= device->subdevices)
		return -EINVAL;
	static unsigned numbers[MOST_CHANNELS];
	const struct subdevice *s = &device->subdevice[asked->subdev];
	if ((asked->maxdata_list && !(s->flags & SDF_MAXDATA)) || asked->flaglist || (asked->rangelist && !(s->flags & SDF_RANGETYPE)))
		return -EINVAL;
	for (unsigned i = 0; i < s->channels; i++)
		numbers[i] = s->channel[i].maxdata;
	if (asked->maxdata_list && copy_out(asked->maxdata_list, numbers, s->channels * sizeof *numbers))
		return -EFAULT;
	for (unsigned i = 0; i < s->channels; i++)
		numbers[i] = asked->subdev << 24 | i << 16 | s->channel[i].ranges;
	if (asked->rangelist && copy_out(asked->rangelist, numbers, s->channels * sizeof *numbers))
		return -EFAULT;
	return 0;
}

int board_ranges(const comedi_rangeinfo *asked)
{
	unsigned number = asked->range_type >> 24, channel = asked->range_type >> 16 & 255;
	if (number >= device->subdevices)
		return -EINVAL;
	/* if all channels have the same ranges, the channel isn't looked at */
	if (!(device->subdevice[number].flags & SDF_RANGETYPE))
		channel = 0;
	if (channel >= device->subdevice[number].channels)
		return -EINVAL;
	const struct channel *c = &device->subdevice[number].channel[channel];
	if (RANGE_LENGTH(asked->range_type) != c->ranges)
		return -EINVAL;
	return copy_out(asked->range_ptr, c->range, c->ranges * sizeof *c->range);
}

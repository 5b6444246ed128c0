/*
 * read, write and poll of the device file.
 */
#define _GNU_SOURCE
#include "device.h"
#include "kernel.h"
#include "names.h"
#include "server.h"
#include <errno.h>
#include <stdio.h>
#include <string.h>

/* Takes up to `most` samples, of a line at most. Answers how many, -EAGAIN where none is there yet, END_REPORTED, or an
 * error number. */
int take_samples(int file, int number, unsigned most, uint32_t *samples)
{
	struct subdevice *s = &device->subdevice[number];
	int mapped = s->is_mapped && board_is_input(s) ? buffer_take(file, number, most, samples) : 0;
	return mapped ? mapped : scans_take(file, number, most, samples);
}

/* Copies bytes of samples to the client, which has each in 16 bits or in 32. */
static int copy_samples(const struct subdevice *s, char *to, const uint32_t *samples, unsigned count, size_t from, size_t bytes)
{
	static sampl_t narrow[SAMPLES_OF_A_LINE];
	if (s->sample_bytes == sizeof *samples)
		return copy_out(to, (const char *)samples + from, bytes);
	for (unsigned i = 0; i < count; i++)
		narrow[i] = samples[i];
	return copy_out(to, (const char *)narrow + from, bytes);
}

/* Whether samples are there. To take some where none is would report the command's end, which the next read has to. */
static int holds_samples(int file, int number)
{
	struct counts counts;
	return !scans_count(file, number, &counts) && counts.written > counts.read;
}

/* Gives the client up to so many bytes of samples that were taken, except the bytes of the first one that it has already.
 * What is left of the last sample is kept for the next read. Returns how many, or a negative error number. */
static ssize_t hand_over(struct subdevice *s, char *to, const uint32_t *samples, unsigned count, size_t most)
{
	size_t there = (size_t)count * s->sample_bytes - s->part, bytes = there < most ? there : most;
	if (to && copy_samples(s, to, samples, count, s->part, bytes)) {
		scans_give_back(s, count, samples);
		return -EFAULT;
	}
	s->part = (s->part + bytes) % s->sample_bytes;
	if (s->part)
		scans_give_back(s, 1, samples + count - 1);
	return bytes;
}

/* Returns how many samples so many bytes reach into, from the first one that isn't given as a whole. */
static size_t samples_of_bytes(const struct subdevice *s, size_t bytes)
{
	return (s->part + bytes + s->sample_bytes - 1) / s->sample_bytes;
}

/* Takes what is there, line by line, and gives it to the client, or to nobody if `to` is NULL. Returns the number of bytes, or
 * as take_samples. */
ssize_t stream_take(int file, int number, char *to, size_t bytes)
{
	static uint32_t samples[SAMPLES_OF_A_LINE];
	struct subdevice *s = &device->subdevice[number];
	size_t done = 0, line = scans_of_line(s, SAMPLES_OF_A_LINE);
	while (done < bytes && (!done || holds_samples(file, number))) {
		size_t wanted = samples_of_bytes(s, bytes - done), most = wanted < line ? wanted : line;
		int count = take_samples(file, number, most, samples);
		ssize_t moved = count < 0 ? count : hand_over(s, to ? to + done : NULL, samples, count, bytes - done);
		if (moved < 0)
			return done ? (ssize_t)done : moved;
		done += moved;
		if ((size_t)count < most)
			break;
	}
	return done;
}

/* Half of the samples for which the buffer has room, and at least one. */
static unsigned half_of_buffer(const struct subdevice *s)
{
	unsigned half = (scans_capacity(s) + 1) / 2;
	return half ? half : 1;
}

/* How many samples wake a read that found none: all that it asked for, or half the buffer; or the rest of a scan. */
static int wanted_samples(int file, int number, uint64_t asked, unsigned *wanted)
{
	const struct subdevice *s = &device->subdevice[number];
	uint64_t half = half_of_buffer(s), want = asked;
	if (device->wake == WAKE_SAMPLE)
		want = 1;
	else if (s->waking_samples) {
		struct counts counts;
		int result = scans_count(file, number, &counts);
		if (result)
			return kernel_result(CALL_READ, result);
		want = s->waking_samples - counts.read % s->waking_samples;
	}
	want = want > asked ? asked : want;
	*wanted = want > half ? half : want;
	return 0;
}

/* Waits until a time at which so many samples are there, or have room, or the command has ended. If another call changes
 * the command meanwhile, or a signal comes whose handler restarts calls, that is asked again. Returns 0, or a negative error
 * number. */
static int wait_until(int file, int number, unsigned count, uint64_t time)
{
	for (;;) {
		int result = time_wait(time);
		if (result != BOARD_CHANGED && !(result == -EINTR && signals_restart()))
			return result;
		if (scans_await(file, number, count, &time) || time <= device->now)
			return 0;
	}
}

static int wait_for_samples(int file, int number, unsigned count)
{
	uint64_t time;
	int result = scans_await(file, number, count, &time);
	if (result)
		return result;
	/* where the time stands still nothing will come */
	if (device->pace <= 0 && time <= device->now)
		return -EIO;
	return wait_until(file, number, count, time);
}

/* Whether a read is woken by its first sample, after one that had to wait. Then one question awaits it, where a read that
 * finds nothing would be one more. */
static int awaits_first(int file, size_t samples)
{
	return device->file[file].has_waited && (samples == 1 || device->wake == WAKE_SAMPLE);
}

/* Waits for the first sample, where it isn't there. */
static int wait_for_first(int file, int number)
{
	uint64_t time;
	struct file *f = &device->file[file];
	f->has_waited = !scans_await(file, number, 1, &time) && time > device->now;
	return f->has_waited ? wait_until(file, number, 1, time) : 0;
}

/* Reads one sample, once it is there: where no other thread and no clock goes on meanwhile, by one question. */
static ssize_t read_next(int file, int number, char *to)
{
	struct subdevice *s = &device->subdevice[number];
	uint32_t sample;
	uint64_t before = device->now;
	int count = scans_fetch(file, number, &sample);
	device->file[file].has_waited = device->now > before;
	return count < 0 ? count : hand_over(s, to, &sample, 1, s->sample_bytes);
}

/* Reports an error to a read or a write of no bytes, and nothing else. That ends the command, unless samples are left: they can
 * still be read, as the kernel has it. */
static int move_nothing(int file, int number)
{
	struct counts counts;
	uint32_t none;
	int result = scans_count(file, number, &counts);
	if (result)
		return kernel_result(CALL_READ, result);
	if (counts.state == STATE_IDLE)
		return -EINVAL;
	if (counts.state != STATE_OVERRUN && counts.state != STATE_FIFO && counts.state != STATE_UNDERRUN)
		return scans_have_failed(file, number, &counts) ? -EPIPE : 0;
	return board_is_input(&device->subdevice[number]) ? take_samples(file, number, 0, &none) : scans_end(file, number);
}

ssize_t device_read(int file, void *to, size_t bytes, int waits)
{
	int number = device->file[file].read_subdevice;
	if (number == NO_SUBDEVICE)
		return -EIO;
	const struct subdevice *s = &device->subdevice[number];
	if (!bytes)
		return move_nothing(file, number);
	ssize_t result = 0;
	if (waits && awaits_first(file, samples_of_bytes(s, bytes))) {
		int is_one = bytes == s->sample_bytes && device->pace <= 0 && turns_is_alone() && scans_can_fetch(number);
		result = is_one ? read_next(file, number, to) : wait_for_first(file, number);
		if (result == -EAGAIN)
			result = 0;
	}
	while (!result) {
		unsigned wanted = 0;
		result = stream_take(file, number, to, bytes);
		if (result != -EAGAIN || !waits)
			break;
		device->file[file].has_waited = 1;
		result = wanted_samples(file, number, samples_of_bytes(s, bytes), &wanted);
		if (!result)
			result = wait_for_samples(file, number, wanted);
	}
	return result == END_REPORTED ? 0 : result;
}

/* Takes so many samples from the client, of which an output may have got the first bytes already. */
static int copy_values(const struct subdevice *s, uint32_t *values, const char *from, unsigned count)
{
	static sampl_t narrow[VALUES_OF_A_LINE];
	char *bytes = s->sample_bytes == sizeof *values ? (char *)values : (char *)narrow;
	memcpy(bytes, s->part_bytes, s->part);
	if (copy_in(bytes + s->part, from, (size_t)count * s->sample_bytes - s->part))
		return -EFAULT;
	for (unsigned i = 0; i < count && bytes == (char *)narrow; i++)
		values[i] = narrow[i];
	return 0;
}

/* Keeps bytes that are no whole sample, if there is room for one. Returns how many, or as scans_put. */
static ssize_t keep_part(int file, int number, const char *from, size_t bytes)
{
	struct subdevice *s = &device->subdevice[number];
	struct counts counts;
	int result = scans_count(file, number, &counts);
	if (result)
		return kernel_result(CALL_WRITE, result);
	if (counts.state != STATE_RUNS)
		return scans_end(file, number);
	if (!s->part && !counts.room)
		return -EAGAIN;
	if (copy_in(s->part_bytes + s->part, from, bytes))
		return -EFAULT;
	s->part += bytes;
	return bytes;
}

/* Refuses a write from a pointer that leads nowhere. As in the kernel the pointer matters only if there is room. */
static int refuse_pointer(int file, int number)
{
	struct counts counts;
	int result = scans_count(file, number, &counts);
	if (result)
		return kernel_result(CALL_WRITE, result);
	if (counts.state != STATE_RUNS)
		return scans_end(file, number);
	return counts.room ? -EFAULT : -EAGAIN;
}

/* Stores what there is room for, line by line. Returns the number of bytes, or as scans_put. */
static ssize_t write_present(int file, int number, const char *from, size_t bytes)
{
	static uint32_t values[VALUES_OF_A_LINE];
	struct subdevice *s = &device->subdevice[number];
	size_t done = 0, line = scans_of_line(s, VALUES_OF_A_LINE);
	while (done < bytes) {
		size_t whole = (s->part + bytes - done) / s->sample_bytes, most = whole < line ? whole : line;
		if (!whole) {
			ssize_t kept = keep_part(file, number, from + done, bytes - done);
			return kept >= 0 ? (ssize_t)done + kept : done ? (ssize_t)done : kept;
		}
		int count = copy_values(s, values, from + done, most) ? refuse_pointer(file, number) : scans_put(file, number, most, values);
		if (count < 0)
			return done ? (ssize_t)done : count;
		done += (size_t)count * s->sample_bytes - s->part;
		s->part = 0;
		if ((size_t)count < most)
			break;
	}
	return done;
}

/* Returns for how many samples there has to be room before a write of so many bytes goes on: all, or half of the buffer. */
static unsigned wanted_room(const struct subdevice *s, size_t bytes)
{
	size_t half = half_of_buffer(s), all = (s->part + bytes) / s->sample_bytes;
	return all > half ? half : all ? all : 1;
}

ssize_t device_write(int file, const void *from, size_t bytes, int waits)
{
	int number = device->file[file].write_subdevice;
	if (number == NO_SUBDEVICE)
		return -EIO;
	if (!bytes)
		return move_nothing(file, number);
	for (;;) {
		ssize_t result = write_present(file, number, from, bytes);
		if (result == END_REPORTED)
			return 0;
		if (result != -EAGAIN || !waits)
			return result;
		result = wait_for_samples(file, number, wanted_room(&device->subdevice[number], bytes));
		if (result)
			return result;
	}
}

/* Counts and state of a file's command. Answers 1 where it runs, 0 where it doesn't, or isn't this file's. */
static int running_counts(int file, int number, struct counts *counts)
{
	return !scans_count(file, number, counts) && counts->state == STATE_RUNS;
}

int stream_ready_to_read(int file)
{
	int number = device->file[file].read_subdevice;
	struct counts counts;
	if (number == NO_SUBDEVICE)
		return 0;
	return !running_counts(file, number, &counts) || counts.written > counts.read;
}

int stream_ready_to_write(int file)
{
	int number = device->file[file].write_subdevice;
	struct counts counts;
	if (number == NO_SUBDEVICE)
		return 0;
	return !running_counts(file, number, &counts) || counts.room;
}

/* The next time at which a file gets ready, if any. */
int stream_next_time(int file, int reads, int writes, uint64_t *time)
{
	const struct file *f = &device->file[file];
	uint64_t first = UINT64_MAX, found;
	if (reads && f->read_subdevice != NO_SUBDEVICE && !scans_await(file, f->read_subdevice, 1, &found))
		first = found;
	if (writes && f->write_subdevice != NO_SUBDEVICE && !scans_await(file, f->write_subdevice, 1, &found) && found < first)
		first = found;
	*time = first;
	return first != UINT64_MAX;
}

/* Finds when more samples than now have come to an input, or there is room for more words of an output, or the command has
 * ended. Returns 0 if that is now or never. */
int stream_next_event(int file, int number, uint64_t *time)
{
	struct counts counts;
	if (!running_counts(file, number, &counts))
		return 0;
	uint64_t there = board_is_input(&device->subdevice[number]) ? counts.written - counts.read : counts.room;
	return !scans_await(file, number, there + 1, time) && *time > device->now;
}

/* Finds the next time at which something happens to a file, whether it is ready before or not. Returns 0 if there is none. */
int stream_next_change(int file, int reads, int writes, uint64_t *time)
{
	const struct file *f = &device->file[file];
	uint64_t found;
	*time = NEVER;
	if (reads && f->read_subdevice != NO_SUBDEVICE && stream_next_event(file, f->read_subdevice, &found))
		*time = found;
	if (writes && f->write_subdevice != NO_SUBDEVICE && stream_next_event(file, f->write_subdevice, &found) && found < *time)
		*time = found;
	return *time != NEVER;
}

/* Counts what has come to an input or was put out since the command's start, with whether it runs. */
static uint64_t count_events(int file, int number)
{
	struct counts counts = { 0 };
	if (number == NO_SUBDEVICE)
		return 0;
	int runs = running_counts(file, number, &counts);
	return 2 * (board_is_input(&device->subdevice[number]) ? counts.written : counts.read) + runs;
}

void stream_happened(int file, struct happened *happened)
{
	happened->commands = device->commands;
	happened->read = count_events(file, device->file[file].read_subdevice);
	happened->written = count_events(file, device->file[file].write_subdevice);
}

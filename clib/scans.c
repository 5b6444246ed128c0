/*
 * What a client's sample is. As in the kernel (comedi_bytes_per_scan) a scan of a digital subdevice is packed: bit K of it
 * is the K-th entry of the list, and it has as many samples as these bits fill. It is there as a whole or not at all. Of all
 * other subdevices each entry is a sample. In the session each entry is one; all counts here are the client's.
 */
#define _GNU_SOURCE
#include "device.h"
#include "kernel.h"
#include "server.h"
#include <errno.h>
#include <stdio.h>
#include <string.h>

#define BITS_OF(s) (8 * (s)->sample_bytes)

/* Notes that a command has begun. Each of its scans may wake a read. It stops after so many scans, or NEVER, or after 0 if that
 * isn't known. */
void scans_begin(struct subdevice *s, unsigned entries, int each_wakes, uint64_t stops_after)
{
	int packed = board_is_digital(s);
	s->unit_entries = packed ? entries : 1;
	s->unit_samples = packed ? (entries + BITS_OF(s) - 1) / BITS_OF(s) : 1;
	unsigned scan = entries / s->unit_entries * s->unit_samples;
	s->waking_samples = each_wakes ? scan : 0;
	s->total = stops_after == NEVER ? NEVER : stops_after * scan;
	s->rests = s->part = 0;
}

/* How many samples so many entries are, and how many entries hold so many samples at least. */
static uint64_t samples_of(const struct subdevice *s, uint64_t entries)
{
	return entries / s->unit_entries * s->unit_samples;
}

static uint64_t entries_of(const struct subdevice *s, uint64_t samples)
{
	return (samples + s->unit_samples - 1) / s->unit_samples * s->unit_entries;
}

/* How many samples the buffer holds, and how many a line with so many values has. */
unsigned scans_capacity(const struct subdevice *s)
{
	return samples_of(s, s->buffer);
}

unsigned scans_of_line(const struct subdevice *s, unsigned values)
{
	return samples_of(s, values);
}

/* The samples of a scan. A raw word of a line may have its bit elsewhere. */
static void pack_scan(const struct subdevice *s, const uint64_t *codes, uint32_t *samples)
{
	memset(samples, 0, s->unit_samples * sizeof *samples);
	for (unsigned bit = 0; bit < s->unit_entries; bit++)
		samples[bit / BITS_OF(s)] |= (uint32_t)(codes[bit] != 0) << bit % BITS_OF(s);
}

/* The samples of so many entries, whole scans. */
static void pack_scans(const struct subdevice *s, const uint64_t *codes, unsigned count, uint32_t *samples)
{
	unsigned entries = s->unit_entries;
	if (!board_is_digital(s))
		for (unsigned i = 0; i < count; i++)
			samples[i] = codes[i];
	else
		for (unsigned i = 0; i < count / entries; i++)
			pack_scan(s, codes + i * entries, samples + i * s->unit_samples);
}

/* The entries of a scan. What its samples have beyond them is nothing to an output. */
static void unpack_scan(const struct subdevice *s, const uint32_t *samples, uint32_t *values)
{
	for (unsigned bit = 0; bit < s->unit_entries; bit++)
		values[bit] = samples[bit / BITS_OF(s)] >> bit % BITS_OF(s) & 1;
}

/* Asks how many entries were read, how many were written, and for the state of the command. */
static int ask_entries(int file, int number, uint64_t entries[2], enum state *state)
{
	int result = question_info(file, number), found = result ? 0 : answer_state();
	if (!result && (answer_numbers(entries, 2) != 2 || found < 0))
		return -EIO;
	*state = found;
	return result;
}

static int await_entries(int file, int number, uint64_t entries, uint64_t *time)
{
	int result = question_await(file, number, entries);
	if (!result && answer_numbers(time, 1) != 1)
		return -EIO;
	return result;
}

/* Lets go of a scan that broke off in the middle, so that the end of its command is reported. One that is only not whole
 * yet stays. */
static int leave_part(int file, int number, uint64_t entries[2], enum state *state)
{
	uint64_t time;
	int result = await_entries(file, number, device->subdevice[number].unit_entries, &time);
	if (!result && time <= device->now)
		result = question_codes(file, number, entries[1] - entries[0]);
	return result ? result : ask_entries(file, number, entries, state);
}

/* How many samples of a command were read, and how many written; of an output, for how many there is room. Its state is that
 * of the client where it has taken all. */
int scans_count(int file, int number, struct counts *counts)
{
	uint64_t entries[2];
	int result = ask_entries(file, number, entries, &counts->state);
	if (result)
		return result;
	struct subdevice *s = &device->subdevice[number];
	int is_input = board_is_input(s);
	if (is_input && entries[1] > entries[0] && entries[1] - entries[0] < s->unit_entries)
		result = leave_part(file, number, entries, &counts->state);
	if (result)
		return result;
	if (counts->state == STATE_IDLE)
		s->rests = s->part = 0;
	counts->read = samples_of(s, entries[0]) - (is_input ? s->rests : 0);
	counts->written = samples_of(s, entries[1]) + (is_input ? 0 : s->rests);
	uint64_t room = entries[1] - entries[0] < s->buffer ? samples_of(s, s->buffer - (entries[1] - entries[0])) : 0;
	counts->room = room > s->rests ? room - s->rests : 0;
	return 0;
}

/* When a command of a file holds so many samples, or room for so many, or has ended. */
int scans_await(int file, int number, uint64_t count, uint64_t *time)
{
	const struct subdevice *s = &device->subdevice[number];
	uint64_t missing = !board_is_input(s) ? count + s->rests : count > s->rests ? count - s->rests : 0;
	return await_entries(file, number, entries_of(s, missing), time);
}

/* Returns whether the command of an input, of which samples are left, has ended by an error. The session says that only when
 * none is left. But such a command has ended before its samples were complete, and before the signals were over. */
int scans_have_failed(int file, int number, const struct counts *counts)
{
	uint64_t end;
	if (counts->written >= device->subdevice[number].total || device->now >= device->horizon)
		return 0;
	return !question_await(file, number, UINT32_MAX) && answer_numbers(&end, 1) == 1 && end <= device->now;
}

/* An answer that ends a command: what the client gets for it. */
static int reported_end(int result)
{
	const char *end = result ? "" : answer_end();
	if (result != -EPIPE && strcmp(end, "done") && strcmp(end, "dry"))
		return 0;
	record_note("%llu end: %s", (unsigned long long)device->now, server_answer());
	if (!strcmp(end, "dry"))
		time_say_end();
	return result ? result : END_REPORTED;
}

/* What a line that moves samples was answered: 0 where there is a count, or as scans_take. */
static int moved(enum call call, int result)
{
	if (!result && !*answer_end())
		return 0;
	int end = reported_end(result);
	if (end)
		return end;
	if (result)
		return kernel_result(call, result);
	return strcmp(answer_end(), "idle") ? 0 : -EINVAL;
}

/* Reads what is there of so many entries, once `wanted` are. Answers the number of samples, or as scans_take. */
static int read_when(int file, int number, unsigned wanted, unsigned entries, uint32_t *samples)
{
	static uint64_t numbers[1 + SAMPLES_OF_A_LINE];
	const struct subdevice *s = &device->subdevice[number];
	int asked = wanted ? question_fetch(file, number, wanted, entries) : question_codes(file, number, entries);
	int result = moved(CALL_READ, asked);
	if (result)
		return result;
	int count = answer_numbers(numbers, 1 + SAMPLES_OF_A_LINE) - 1;
	if (count < 0 || (uint64_t)count != numbers[0] || count > (int)entries || count % s->unit_entries)
		return -EIO;
	pack_scans(s, numbers + 1, count, samples);
	return samples_of(s, count);
}

static int read_entries(int file, int number, unsigned entries, uint32_t *samples)
{
	return read_when(file, number, 0, entries, samples);
}

/* Keeps samples that a client couldn't take. They are the next ones again. */
void scans_give_back(struct subdevice *s, unsigned count, const uint32_t *samples)
{
	memmove(s->rest + count, s->rest, s->rests * sizeof *samples);
	memcpy(s->rest, samples, count * sizeof *samples);
	s->rests += count;
}

/* Gives the client samples that are read already. */
static unsigned take_rest(struct subdevice *s, unsigned most, uint32_t *samples)
{
	unsigned count = s->rests < most ? s->rests : most;
	memcpy(samples, s->rest, count * sizeof *samples);
	s->rests -= count;
	memmove(s->rest, s->rest + count, s->rests * sizeof *samples);
	return count;
}

/* Reads whole scans for so many samples, and keeps what is too much of the last one. */
static int read_scans(int file, int number, unsigned most, uint32_t *samples)
{
	static uint32_t whole[SAMPLES_OF_A_LINE];
	struct subdevice *s = &device->subdevice[number];
	int count = read_entries(file, number, entries_of(s, most), whole);
	if (count <= 0)
		return count;
	unsigned taken = (unsigned)count < most ? (unsigned)count : most;
	memcpy(samples, whole, taken * sizeof *samples);
	s->rests = count - taken;
	memcpy(s->rest, whole + taken, s->rests * sizeof *samples);
	return taken;
}

/* Takes what is kept, and then whole scans: as many as are there. Where none is a command's end would be reported, which
 * is for the next call if anything was taken. */
static int take_scans(int file, int number, unsigned most, uint32_t *samples)
{
	struct counts counts;
	/* what is kept belongs to the file that runs the command: another one gets its own answer */
	if (device->subdevice[number].rests && scans_count(file, number, &counts))
		return read_entries(file, number, most, samples);
	unsigned first = take_rest(&device->subdevice[number], most, samples);
	if (device->subdevice[number].rests || (first && first == most))
		return first;
	int result = scans_count(file, number, &counts);
	uint64_t there = result ? 0 : counts.written - counts.read, missing = most - first;
	if (first && !there)
		return first;
	if (result)
		return kernel_result(CALL_READ, result);
	int count = read_scans(file, number, there < missing ? there : missing, samples + first);
	return count < 0 ? count : (int)first + count;
}

/* Takes up to `most` samples, of a line at most. Answers how many, -EAGAIN where none is there yet, END_REPORTED, or an
 * error number. */
int scans_take(int file, int number, unsigned most, uint32_t *samples)
{
	const struct subdevice *s = &device->subdevice[number];
	int count = (board_is_digital(s) || s->rests ? take_scans : read_entries)(file, number, most, samples);
	return count ? count : -EAGAIN;
}

/* Whether the next sample can be awaited and taken by one question: none is read already, and it is one entry. */
int scans_can_fetch(int number)
{
	const struct subdevice *s = &device->subdevice[number];
	return !s->is_mapped && !board_is_digital(s) && !s->rests;
}

/* The next sample, once it is there. Answers 1, or as scans_take. */
int scans_fetch(int file, int number, uint32_t *sample)
{
	int count = read_when(file, number, 1, 1, sample);
	return count ? count : -EAGAIN;
}

/* Writes values. Answers how many were stored, or as scans_take. */
static int write_entries(int file, int number, const uint32_t *values, unsigned count)
{
	char start[64];
	uint64_t stored;
	snprintf(start, sizeof start, "write %d %d", file, number);
	int result = moved(CALL_WRITE, line_of_values(start, values, count));
	if (result)
		return result;
	return answer_numbers(&stored, 1) == 1 ? (int)stored : -EIO;
}

/* Writes the scans that are whole with what the client gives, and keeps the rest. */
static int write_scans(int file, int number, unsigned count, const uint32_t *samples)
{
	static uint32_t values[VALUES_OF_A_LINE], whole[VALUES_OF_A_LINE + MOST_ENTRIES / 16];
	struct subdevice *s = &device->subdevice[number];
	unsigned all = s->rests + count, scans = all / s->unit_samples;
	memcpy(whole, s->rest, s->rests * sizeof *whole);
	memcpy(whole + s->rests, samples, count * sizeof *whole);
	for (unsigned i = 0; i < scans; i++)
		unpack_scan(s, whole + i * s->unit_samples, values + i * s->unit_entries);
	int result = scans ? write_entries(file, number, values, scans * s->unit_entries) : 0;
	if (result < 0)
		return result;
	s->rests = all - scans * s->unit_samples;
	memcpy(s->rest, whole + all - s->rests, s->rests * sizeof *whole);
	return count;
}

/* Asks for the end of an output's command that has ended: it is reported to any word. Answers as scans_take. */
int scans_end(int file, int number)
{
	const uint32_t none = 0;
	return write_entries(file, number, &none, 1);
}

/* Stores up to so many samples, of a line at most, after all others. Answers how many had room, -EAGAIN where none had, or
 * as scans_take. */
int scans_put(int file, int number, unsigned count, const uint32_t *samples)
{
	struct counts counts;
	int stored;
	if (!board_is_digital(&device->subdevice[number]))
		stored = write_entries(file, number, samples, count);
	else {
		int result = scans_count(file, number, &counts);
		if (result)
			return kernel_result(CALL_WRITE, result);
		if (counts.state != STATE_RUNS)
			return scans_end(file, number);
		stored = write_scans(file, number, counts.room < count ? counts.room : count, samples);
	}
	return stored ? stored : -EAGAIN;
}

/* Maps so many samples more in the session. */
int scans_map(int file, int number, uint64_t count)
{
	uint64_t entries = entries_of(&device->subdevice[number], count);
	return line_of_session("map %d %d %llu", file, number, (unsigned long long)entries);
}

/* Mapped samples, of a line at most, from one on that is counted from the first one that isn't released. Answers how many. */
int scans_peek(int file, int number, uint64_t from, uint32_t *samples)
{
	static uint64_t numbers[1 + SAMPLES_OF_A_LINE];
	const struct subdevice *s = &device->subdevice[number];
	unsigned most = SAMPLES_OF_A_LINE / s->unit_entries * s->unit_entries;
	int result = question_peek(file, number, entries_of(s, from), most);
	if (result)
		return result;
	int count = answer_numbers(numbers, 1 + SAMPLES_OF_A_LINE) - 1;
	if (count <= 0 || count % s->unit_entries)
		return -EIO;
	pack_scans(s, numbers + 1, count, samples);
	return samples_of(s, count);
}

/* Releases so many mapped samples. A scan of which the client has a part is released as a whole. */
int scans_release(int file, int number, unsigned count)
{
	struct subdevice *s = &device->subdevice[number];
	unsigned missing = count > s->rests ? count - s->rests : 0;
	uint64_t entries = entries_of(s, missing);
	s->rests += samples_of(s, entries) - count;
	return entries ? line_of_session("release %d %d %llu", file, number, (unsigned long long)entries) : 0;
}

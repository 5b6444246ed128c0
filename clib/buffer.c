/*
 * The buffer as clients see it that map it: the memory, and the counts of BUFINFO. All samples that the session's
 * buffer holds are mapped in the session too, and put into the memory, each at its number modulo the buffer's size.
 */
#define _GNU_SOURCE
#include "descriptors.h"
#include "device.h"
#include "kernel.h"
#include "server.h"
#include <errno.h>
#include <fcntl.h>
#include <stdio.h>
#include <stdlib.h>
#include <string.h>
#include <sys/mman.h>
#include <sys/stat.h>
#include <sys/syscall.h>
#include <unistd.h>

/* the file of the memory of all buffers; a child made by fork has it under the same number */
static int memory = -1;

static size_t memory_bytes(const struct subdevice *s)
{
	size_t page = sysconf(_SC_PAGESIZE);
	return ((size_t)s->buffer * s->sample_bytes + page - 1) / page * page;
}

static uint32_t memory_get(const struct subdevice *s, uint64_t place)
{
	place %= s->buffer;
	return s->sample_bytes == sizeof(lsampl_t) ? ((lsampl_t *)s->memory)[place] : ((sampl_t *)s->memory)[place];
}

static void memory_put(struct subdevice *s, uint64_t place, uint32_t code)
{
	place %= s->buffer;
	if (s->sample_bytes == sizeof(lsampl_t))
		((lsampl_t *)s->memory)[place] = code;
	else
		((sampl_t *)s->memory)[place] = code;
}

/* The counts of a command. A subdevice without a buffer has none, whatever is answered. */
static int ask_counts(int file, int number, struct counts *counts)
{
	int result = scans_count(file, number, counts);
	if (result)
		return kernel_result(CALL_BUFFER, result);
	return counts->state == STATE_IDLE || !device->subdevice[number].buffer ? -EINVAL : 0;
}

/* Fills the memory with what a read has left of a scan. */
static void fill_rest(struct subdevice *s, uint64_t read)
{
	if (s->filled < read)
		s->filled = read;
	for (; s->filled < read + s->rests; s->filled++)
		memory_put(s, s->filled, s->rest[s->filled - read]);
}

/* Fills the memory with the samples between the counts that aren't there yet. */
static int fill_memory(int file, int number, const struct counts *counts)
{
	static uint32_t samples[SAMPLES_OF_A_LINE];
	struct subdevice *s = &device->subdevice[number];
	if (!s->is_mapped || !board_is_input(s))
		return 0;
	fill_rest(s, counts->read);
	if (s->filled == counts->written)
		return 0;
	int result = scans_map(file, number, counts->written - s->filled);
	while (!result && s->filled < counts->written) {
		int count = scans_peek(file, number, s->filled - counts->read - s->rests, samples);
		if (count < 0)
			return count;
		for (int i = 0; i < count; i++)
			memory_put(s, s->filled++, samples[i]);
	}
	return result;
}

/* Takes up to `most` samples of a buffer that a client has mapped: they are in the memory, and in the session they
 * are mapped. Answers how many, or an error number. */
int buffer_take(int file, int number, unsigned most, uint32_t *samples)
{
	const struct subdevice *s = &device->subdevice[number];
	struct counts counts;
	int result = ask_counts(file, number, &counts);
	if (!result)
		result = fill_memory(file, number, &counts);
	if (result)
		return result;
	unsigned count = counts.written - counts.read < most ? counts.written - counts.read : most;
	for (unsigned i = 0; i < count; i++)
		samples[i] = memory_get(s, counts.read + i);
	if (count)
		result = scans_release(file, number, count);
	return result ? kernel_result(CALL_READ, result) : (int)count;
}

/* Makes the memory of all buffers, one after the other in one file, after what is used to copy. */
int buffer_make_memory(void)
{
	size_t whole = MOST_COPIED;
	for (unsigned i = 0; i < device->subdevices; i++) {
		device->subdevice[i].memory_offset = whole;
		whole += memory_bytes(&device->subdevice[i]);
	}
	memory = keep_away(memfd_create("comedi-buffers", MFD_CLOEXEC));
	descriptors_protect(&memory);
	int result = memory_lengthen(memory, whole);
	if (result)
		return result;
	char *place = mmap(NULL, whole, PROT_READ | PROT_WRITE, MAP_SHARED, memory, 0);
	if (place == MAP_FAILED)
		return -ENOMEM;
	device->copied = place;
	for (unsigned i = 0; i < device->subdevices; i++)
		device->subdevice[i].memory = place + device->subdevice[i].memory_offset;
	return 0;
}

int buffer_memory(void)
{
	return memory;
}

/* A part of the file of all buffers. */
struct part {
	uint64_t inode, start, length;
};

/* the list of what this process has mapped, and which words of a line are the place in the file and the inode */
#define MAPS "/proc/self/maps"
#define PLACE_WORD 2
#define INODE_WORD 4

static int maps_part(const char *line, const void *what)
{
	const struct part *part = what;
	uint64_t place = strtoull(listings_word(line, PLACE_WORD), NULL, 16), inode = strtoull(listings_word(line, INODE_WORD), NULL, 10);
	return inode == part->inode && place >= part->start && place - part->start < part->length;
}

/* Returns whether a client has mapped the buffer of a subdevice and not given it back. The library's own map starts before all
 * buffers. */
int buffer_is_mapped(int number)
{
	const struct subdevice *s = &device->subdevice[number];
	struct stat state;
	if (!s->is_mapped || syscall(SYS_fstat, memory, &state))
		return 0;
	return listings_have(MAPS, maps_part, &(struct part){ state.st_ino, s->memory_offset, memory_bytes(s) }) == 1;
}

/* A client is about to map the buffer: from now on it is kept filled. */
int buffer_map(int file, int number)
{
	struct counts counts;
	device->subdevice[number].is_mapped = 1;
	int result = ask_counts(file, number, &counts);
	/* without a command of this file there is nothing to fill it with */
	return result ? (result == -EINVAL ? 0 : result) : fill_memory(file, number, &counts);
}

/* Marks up to so many words of the memory as written, from the count of written ones on. Answers how many. */
static int mark_words(int file, int number, uint64_t written, uint64_t asked)
{
	static uint32_t samples[VALUES_OF_A_LINE];
	const struct subdevice *s = &device->subdevice[number];
	unsigned line = scans_of_line(s, VALUES_OF_A_LINE);
	uint64_t done = 0;
	while (done < asked) {
		unsigned most = asked - done < line ? asked - done : line;
		for (unsigned i = 0; i < most; i++)
			samples[i] = memory_get(s, written + done + i);
		int count = scans_put(file, number, most, samples);
		if (count < 0)
			return done || count == -EAGAIN ? (int)done : count;
		done += count;
		if ((unsigned)count < most)
			break;
	}
	return done;
}

/* Marks bytes of the memory as written, also those of a part of a word, which is put out when all of it is marked. Returns how
 * many, and counts the words. */
static int mark_bytes(int file, int number, struct counts *counts, size_t bytes)
{
	struct subdevice *s = &device->subdevice[number];
	size_t size = s->sample_bytes, before = s->part, whole = (before + bytes) / size, part = (before + bytes) % size;
	char *words = s->memory;
	memcpy(words + counts->written % s->buffer * size, s->part_bytes, before);
	int marked = mark_words(file, number, counts->written, whole);
	if (marked < 0 || (!marked && whole))
		return marked;
	counts->written += marked;
	/* the part of a word has room if the word has */
	int has_room = counts->room > (uint64_t)marked || (!whole && before);
	s->part = (size_t)marked == whole && has_room ? part : 0;
	memcpy(s->part_bytes, words + counts->written % s->buffer * size, s->part);
	return marked * size + s->part - before;
}

/* The counts in bytes, with those of a sample that the client has moved a part of. */
static void put_counts(const struct subdevice *s, const struct counts *counts, comedi_bufinfo *info)
{
	int is_input = board_is_input(s);
	info->buf_read_count = counts->read * s->sample_bytes + (is_input ? s->part : 0);
	info->buf_write_count = counts->written * s->sample_bytes + (is_input ? 0 : s->part);
	info->buf_read_ptr = counts->read % s->buffer * s->sample_bytes + (is_input ? s->part : 0);
	info->buf_write_ptr = counts->written % s->buffer * s->sample_bytes + (is_input ? 0 : s->part);
}

/* An input: samples are given back, and where nothing is left of a command that ended, its end is reported. A command
 * that ended in error reports it to the call after the one that gave its last samples back. */
static int input_info(int file, int number, comedi_bufinfo *info, struct counts *counts)
{
	struct subdevice *s = &device->subdevice[number];
	ssize_t released = 0;
	if (info->bytes_read && counts->written > counts->read) {
		uint64_t there = (counts->written - counts->read) * s->sample_bytes - s->part;
		released = stream_take(file, number, NULL, info->bytes_read < there ? info->bytes_read : there);
		released = released == -EAGAIN ? 0 : released;
		int result = released < 0 ? (int)released : ask_counts(file, number, counts);
		if (result)
			return result;
	}
	int failed = counts->state == STATE_OVERRUN || counts->state == STATE_FIFO;
	int ended = (failed || counts->state == STATE_DONE || counts->state == STATE_DRY) && counts->written == counts->read;
	info->bytes_read = released;
	info->bytes_written = 0;
	put_counts(s, counts, info);
	if (ended && !(failed && released)) {
		uint32_t none;
		int result = take_samples(file, number, 0, &none);
		return result == END_REPORTED ? 0 : result;
	}
	return fill_memory(file, number, counts);
}

/* An output: words are marked, or the end is reported. */
static int output_info(int file, int number, comedi_bufinfo *info, struct counts *counts)
{
	struct subdevice *s = &device->subdevice[number];
	uint32_t last = 0;
	info->bytes_read = 0;
	put_counts(s, counts, info);
	if (counts->state != STATE_RUNS) {
		info->bytes_written = 0;
		int result = scans_put(file, number, 1, &last);
		return result == END_REPORTED ? 0 : result;
	}
	int marked = mark_bytes(file, number, counts, info->bytes_written);
	if (marked < 0)
		return marked;
	info->bytes_written = marked;
	put_counts(s, counts, info);
	return 0;
}

int buffer_info(int file, comedi_bufinfo *info)
{
	struct counts counts;
	if (info->subdevice >= device->subdevices)
		return -EINVAL;
	int number = info->subdevice;
	int result = ask_counts(file, number, &counts);
	if (result)
		return result;
	if (board_is_input(&device->subdevice[number]))
		return input_info(file, number, info, &counts);
	return output_info(file, number, info, &counts);
}

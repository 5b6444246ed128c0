/*
 * Lists of the kernel, of which each line is a thing: sockets, or the memory of this process.
 */
#define _GNU_SOURCE
#include "descriptors.h"
#include <fcntl.h>
#include <string.h>
#include <sys/syscall.h>
#include <unistd.h>

/* Looks for a line in a text that ends with a line feed. */
static int has_line(char *text, int (*fits)(const char *line, const void *what), const void *what)
{
	for (char *line = text, *end; (end = strchr(line, '\n')); line = end + 1) {
		*end = 0;
		if (fits(line, what))
			return 1;
	}
	return 0;
}

/* Reads a list piece by piece. A line that isn't whole yet is kept for the next piece. */
static int has_line_in_file(int list, int (*fits)(const char *line, const void *what), const void *what)
{
	static char text[8192];
	size_t kept = 0;
	for (;;) {
		long count = syscall(SYS_read, list, text + kept, sizeof text - 1 - kept);
		if (count <= 0)
			return count < 0 ? -1 : 0;
		text[kept + count] = 0;
		char *last = strrchr(text, '\n'), *rest = last ? last + 1 : text;
		char first = *rest;
		*rest = 0;
		if (has_line(text, fits, what))
			return 1;
		*rest = first;
		kept = text + kept + count - rest;
		memmove(text, rest, kept);
		if (kept == sizeof text - 1)
			return -1;
	}
}

/* Returns whether a list has a line that fits, or -1 if the kernel doesn't say so. Called within the device. */
int listings_have(const char *path, int (*fits)(const char *line, const void *what), const void *what)
{
	int list = syscall(SYS_openat, AT_FDCWD, path, O_RDONLY | O_CLOEXEC);
	if (list < 0)
		return -1;
	int have = has_line_in_file(list, fits, what);
	syscall(SYS_close, list);
	return have;
}

/* Returns the word of a line with an index, counted from 0. */
const char *listings_word(const char *line, int index)
{
	for (int word = 0; word < index; word++) {
		line += strcspn(line, " ");
		line += strspn(line, " ");
	}
	return line;
}

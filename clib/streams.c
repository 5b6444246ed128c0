/*
 * Streams of the C library over the device. The library reads and writes the descriptors of its streams itself, past these
 * names. So a stream over the device is one that calls functions (fopencookie), and these call the names. It has the number
 * of its descriptor nevertheless.
 */
#define _GNU_SOURCE
#include "descriptors.h"
#include "device.h"
#include "names.h"
#include <errno.h>
#include <fcntl.h>
#include <stdio.h>
#include <stdlib.h>
#include <string.h>
#include <unistd.h>

/* what the C library reads at once from a device with blocks of this size */
#define BLOCK 4096

struct stream {
	int descriptor;
	char buffer[BLOCK];
};

static ssize_t read_stream(void *stream, char *to, size_t bytes)
{
	return read(((struct stream *)stream)->descriptor, to, bytes);
}

/* Writes what a stream holds. Returns the number of bytes, and 0 after an error. */
static ssize_t write_stream(void *stream, const char *from, size_t bytes)
{
	ssize_t result = write(((struct stream *)stream)->descriptor, from, bytes);
	return result < 0 ? 0 : result;
}

/* Moves to a place. The device has none, so the place is always 0. */
static int seek_stream(void *stream, off64_t *place, int whence)
{
	(void)stream;
	(void)whence;
	*place = 0;
	return 0;
}

static int close_stream(void *stream)
{
	int descriptor = ((struct stream *)stream)->descriptor;
	free(stream);
	return close(descriptor);
}

/* Returns the flags with which a stream of a mode opens its file, or -1 if there is no such mode. */
static int flags_of(const char *mode)
{
	int flags = *mode == 'r' ? 0 : *mode == 'w' ? O_CREAT | O_TRUNC : *mode == 'a' ? O_CREAT | O_APPEND : -1;
	if (flags < 0)
		return -1;
	flags |= strchr(mode, '+') ? O_RDWR : *mode == 'r' ? O_RDONLY : O_WRONLY;
	return flags | (strchr(mode, 'e') ? O_CLOEXEC : 0) | (strchr(mode, 'x') ? O_EXCL : 0);
}

/* Makes a stream of a descriptor. Returns NULL if there is no memory. */
static FILE *make_stream(int descriptor, const char *mode)
{
	const cookie_io_functions_t functions = { read_stream, write_stream, seek_stream, close_stream };
	struct stream *s = malloc(sizeof *s);
	if (!s)
		return NULL;
	s->descriptor = descriptor;
	FILE *stream = fopencookie(s, mode, functions);
	if (!stream) {
		free(s);
		return NULL;
	}
	stream->_fileno = descriptor;
	setvbuf(stream, s->buffer, _IOFBF, sizeof s->buffer);
	return stream;
}

/* Opens the device for a stream. */
static FILE *open_stream(const char *path, const char *mode)
{
	int descriptor = open(path, flags_of(mode), 0666);
	FILE *stream = descriptor < 0 ? NULL : make_stream(descriptor, mode);
	if (descriptor >= 0 && !stream)
		close(descriptor);
	return stream;
}

PUBLIC FILE *fopen(const char *restrict path, const char *restrict mode)
{
	return device_serves(path, flags_of(mode)) ? open_stream(path, mode) : REAL(fopen)(path, mode);
}

PUBLIC FILE *fopen64(const char *restrict path, const char *restrict mode)
{
	return device_serves(path, flags_of(mode)) ? open_stream(path, mode) : REAL(fopen64)(path, mode);
}

/* Makes a stream of a descriptor, which can't do more than the descriptor. */
PUBLIC FILE *fdopen(int descriptor, const char *mode)
{
	int file = names_file(descriptor), flags = flags_of(mode);
	if (file == NO_FILE)
		return REAL(fdopen)(descriptor, mode);
	int has = device->file[file].mode;
	if (flags < 0 || (has != O_RDWR && has != (flags & O_ACCMODE))) {
		errno = EINVAL;
		return NULL;
	}
	return make_stream(descriptor, mode);
}

/* Closes a stream. One over the device closes its descriptor by the name of the C library, and all others past it. */
PUBLIC int fclose(FILE *stream)
{
	int descriptor = fileno(stream), file = names_file(descriptor);
	if (file == NO_FILE)
		openings_fresh(descriptor);
	int result = REAL(fclose)(stream);
	/* standard input may have become the device by dup2 */
	if (file != NO_FILE && names_file(descriptor) == NO_FILE)
		device_close(file);
	return result;
}

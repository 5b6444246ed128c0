/* What the probes share. A probe makes calls of the device and prints a row for each one. The same program runs in the
 * real kernel and on a modelled board. It prints nothing that depends on the machine, so that rows can be compared. */
#ifndef PROBE_H
#define PROBE_H

#define _GNU_SOURCE
#include <comedi.h>
#include <errno.h>
#include <fcntl.h>
#include <poll.h>
#include <stddef.h>
#include <stdint.h>
#include <stdio.h>
#include <stdlib.h>
#include <string.h>
#include <sys/ioctl.h>
#include <sys/mman.h>
#include <unistd.h>

#define DEVICE "/dev/comedi0"
/* the size of both buffers of the board comedi_test, in bytes */
#define BUFFER_BYTES 131072
/* the code in the middle of 16 bits: what inputs without a wave have, and what outputs have at the start */
#define MIDDLE 32767
/* a period that no probe waits for, in nanoseconds */
#define SLOW 4000000000u
#define LENGTH(array) (sizeof(array) / sizeof *(array))

enum { INPUT, OUTPUT };

/* A part of a probe, which its first word chooses. */
struct part {
	const char *name;
	void (*run)(char **words);
};

/* Runs the part that the first word names, with the words after it. Ends the probe after so many seconds. */
int run_part(const struct part *parts, size_t count, char **words, unsigned seconds);

/* Prints the heading of the rows that follow. */
void section(const char *format, ...) __attribute__((format(printf, 1, 2)));
/* Prints a row: a call, " = ", and its answer. */
void row(const char *format, ...) __attribute__((format(printf, 1, 2)));
/* Returns the result of a system call as a text: the number, or the error's name. It lasts for eight more calls. */
const char *answer(long result);
const char *error_name(int error);

void sleep_milliseconds(int milliseconds);
/* Waits until no command runs on a subdevice. Its samples, words and end are still there. */
void await_end(int file, unsigned subdevice);

/* Opens the device with flags of `open`, or ends the probe. */
int open_device(int flags);
/* Gives both buffers the size that the modelled board has. */
void set_buffers(int file);
/* Returns who is busy, locked and running, as this file sees it. */
const char *state_of(int file);
const char *flags_text(unsigned flags);

comedi_cmd input_command(unsigned *list, unsigned length, unsigned period, unsigned scans);
comedi_cmd output_command(unsigned *list, unsigned length, unsigned period, unsigned scans);
/* Prints all fields of a command, and whether its list is still `list`. */
const char *command_text(const comedi_cmd *command, const unsigned *list);
/* Gives the device a command, which stays as it is. */
int give(int file, comedi_cmd command);
/* Starts an input of 16 channels that overruns its buffer, and waits until it has. */
void overrun(int file);

int instruction(int file, unsigned kind, unsigned subdevice, unsigned channel, unsigned count, lsampl_t *data);
int trigger(int file, unsigned subdevice, unsigned number);
/* Asks for the counts of a buffer, and gives back or marks so many bytes. */
int buffer_call(int file, unsigned subdevice, unsigned read, unsigned written, comedi_bufinfo *information);
const char *poll_answer(int file, short events, int milliseconds);
/* Maps so many bytes of the buffer, and lets them go. */
const char *map_answer(int file, size_t bytes, int protection, int flags, off_t offset);

/* Returns a number below a bound, the next of a sequence that `seed_random` begins. */
unsigned random_below(unsigned bound);
void seed_random(unsigned seed, unsigned place);

/* Pages that can't be read, or only read, and 16 bytes before one that can't be read. */
extern void *no_page, *read_only_page, *last_bytes;
void make_pages(void);

#endif

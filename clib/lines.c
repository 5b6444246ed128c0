/*
 * Lines of a session, and their answers as numbers. Each line starts with the board's time.
 */
#define _GNU_SOURCE
#include "device.h"
#include "server.h"
#include <errno.h>
#include <stdarg.h>
#include <stdio.h>
#include <stdlib.h>
#include <string.h>

/* room for the longest line: 1,024 values of ten digits */
static char line[1 << 15];
/* room for a line `TIME KEY FILE SUBDEVICE NUMBER`, whose key is short */
#define SHORT_LINE 128

/* An entry of a list as text. Flags, which it can't have, are left out, as a driver that has none does. */
const char *entry_text(unsigned entry)
{
	static const char *const references[] = { "ground", "common", "diff", "other" };
	static char text[64];
	snprintf(text, sizeof text, "%u/%u/%s", CR_CHAN(entry), CR_RANGE(entry), references[CR_AREF(entry)]);
	return text;
}

static void note_output(char *text)
{
	record_note("%s", text);
}

/* What stands after the first word of the answer, and after its number where it is `err`. */
const char *answer_words(void)
{
	const char *text = server_answer();
	while (*text && *text != ' ')
		text++;
	return text + (*text == ' ');
}

/* Returns what stands behind the first word of the answer and so many numbers. */
static const char *behind(int numbers)
{
	const char *text = answer_words();
	for (; numbers; numbers--) {
		while (*text >= '0' && *text <= '9')
			text++;
		text += *text == ' ';
	}
	return text;
}

/* Returns what stands behind the count of the answer: how a command ended, or nothing. */
const char *answer_end(void)
{
	return behind(1);
}

/* Returns the state of a command that an answer to `info` has behind its two counts, or -1 if it has none. */
int answer_state(void)
{
	static const char *const names[STATES] = { "idle", "runs", "done", "dry", "overrun", "underrun", "fifo" };
	const char *word = behind(2);
	size_t length = strcspn(word, " ");
	for (int state = 0; state < STATES; state++)
		if (strlen(names[state]) == length && !memcmp(names[state], word, length))
			return state;
	return -1;
}

int answer_numbers(uint64_t *numbers, int most)
{
	const char *at = answer_words();
	int count = 0;
	for (; count < most && *at >= '0' && *at <= '9'; count++) {
		uint64_t number = 0;
		for (; *at >= '0' && *at <= '9'; at++)
			number = number * 10 + (*at - '0');
		numbers[count] = number;
		at += *at == ' ';
	}
	return count;
}

static int is_refused(const char *answer)
{
	return *answer == 'r' && !strncmp(answer, "refused", 7);
}

/* 0, or the negative error number of the answer. */
static int answer_error(void)
{
	const char *answer = server_answer();
	if (*answer == 'e' && !strncmp(answer, "err ", 4)) {
		int number = atoi(answer + 4);
		return number > 0 ? -number : -EIO;
	}
	return is_refused(answer) ? -EIO : 0;
}

/* Asks what `line` holds, and answers 0 or a negative error number. */
static int ask(int length, void (*each)(char *line))
{
	if (length < 0 || length >= (int)sizeof line - 1)
		return -EINVAL;
	line[length] = '\n';
	return server_ask(line, length + 1, each) ? -EIO : answer_error();
}

/* A line that is refused as no line is a fault of the device. */
static int ask_loudly(int length)
{
	int result = ask(length, note_output);
	if (result == -EIO && is_refused(server_answer()))
		message("%s: %.*s", server_answer(), length, line);
	return result;
}

/* Returns whether a line was answered. One that was refused as no line, or not answered, isn't recorded. */
static int was_answered(void)
{
	return *server_answer() && !is_refused(server_answer());
}

/* Returns what stands behind so many words of a line. */
static const char *skip_words(const char *text, int words)
{
	for (; words && *text; words--) {
		text += strcspn(text, " ");
		text += *text == ' ';
	}
	return text;
}

/* Returns whether the line has changed nothing: a reading, or a write without room. */
static int has_changed_nothing(void)
{
	const char *key = skip_words(line, 1);
	if (!strncmp(key, "write ", 6))
		return !strcmp(server_answer(), "ok 0");
	const char *what = strncmp(key, "insn ", 5) ? "" : skip_words(key, 3);
	return !strncmp(what, "read ", 5) || !strncmp(what, "bits 0 ", 7);
}

/* Records the line, if it was answered. */
static void record_answered(int length)
{
	if (!record_is_there() || !was_answered())
		return;
	if (has_changed_nothing())
		record_question(line, length + 1, server_answer());
	else
		record_line(line, length + 1);
}

__attribute__((format(printf, 1, 0))) static int form_line(const char *form, va_list values)
{
	int start = snprintf(line, sizeof line, "%llu ", (unsigned long long)device->now);
	int rest = vsnprintf(line + start, sizeof line - start, form, values);
	return rest < 0 ? -1 : start + rest;
}

int line_of_session(const char *form, ...)
{
	va_list values;
	va_start(values, form);
	int length = form_line(form, values);
	va_end(values);
	int result = ask_loudly(length);
	record_answered(length);
	return result;
}

/* These are made for every sample that a client reads or writes, so they are put together by hand. */
static char *put_number(char *at, uint64_t number)
{
	char digits[20], *end = digits + sizeof digits, *first = end;
	for (; number >= 10; number /= 10)
		*--first = '0' + number % 10;
	*at++ = '0' + number;
	if (first == end)
		return at;
	memcpy(at, first, end - first);
	return at + (end - first);
}

/* Puts the board's time, which several lines in a row have. */
static char *put_time(char *at)
{
	static char text[20];
	static size_t length;
	static uint64_t time;
	if (!length || time != device->now) {
		time = device->now;
		length = put_number(text, time) - text;
	}
	memcpy(at, text, sizeof text);
	return at + length;
}

/* Puts ` NUMBER` into the line. */
static char *put_word(char *at, uint64_t number)
{
	*at++ = ' ';
	return put_number(at, number);
}

int line_of_values(const char *start, const uint32_t *values, unsigned count)
{
	char *at = line + snprintf(line, sizeof line, "%llu %s", (unsigned long long)device->now, start);
	for (unsigned i = 0; i < count && at < line + sizeof line - 16; i++)
		at = put_word(at, values[i]);
	int result = ask_loudly(at - line);
	record_answered(at - line);
	return result;
}

/* Puts `TIME KEY FILE SUBDEVICE` at a place. Returns its end. */
static char *put_start(char *at, const char *key, int file, int subdevice)
{
	size_t length = strlen(key);
	at = put_time(at);
	*at++ = ' ';
	at = memcpy(at, key, length);
	return put_word(put_word(at + length, file), subdevice);
}

/* Puts `TIME KEY FILE SUBDEVICE NUMBER` into the line. Returns its length. */
static int form_question(const char *key, int file, int subdevice, uint64_t number)
{
	char *end = put_word(put_start(line, key, file, subdevice), number);
	*end = 0;
	return end - line;
}

/* Puts the line that is recorded for a question that changes nothing: it has its checks. Returns its length. */
static size_t put_contents(char *text, int file, int subdevice)
{
	char *end = put_start(text, "contents", file, subdevice);
	*end++ = '\n';
	return end - text;
}

static int ask_state(int length, int file, int subdevice)
{
	char text[SHORT_LINE];
	int result = ask_loudly(length);
	if (record_is_there() && was_answered())
		record_question(text, put_contents(text, file, subdevice), server_answer());
	return result;
}

int question_info(int file, int subdevice)
{
	char *end = put_start(line, "info", file, subdevice);
	*end = 0;
	return ask_state(end - line, file, subdevice);
}

int question_await(int file, int subdevice, unsigned count)
{
	return ask_state(form_question("await", file, subdevice, count), file, subdevice);
}

/* Mapped samples in codes, from one of them on. In the record each of them is looked at. */
int question_peek(int file, int subdevice, unsigned from, unsigned most)
{
	char text[SHORT_LINE];
	uint64_t count = 0;
	int length = form_question("peek", file, subdevice, from);
	int result = ask_loudly(put_word(line + length, most) - line);
	if (!was_answered() || result)
		return result;
	answer_numbers(&count, 1);
	if (count > most)
		return -EIO;
	for (uint64_t i = from; record_is_there() && i < from + count; i++) {
		char *end = put_word(put_start(text, "look", file, subdevice), i);
		*end++ = '\n';
		record_line(text, end - text);
	}
	return 0;
}

/* Returns whether an answer to `read` says that no sample was taken and no end reported. */
static int says_nothing_new(const char *answer)
{
	return !strcmp(answer, "ok 0") || !strcmp(answer, "ok 0 idle") || (!strncmp(answer, "err ", 4) && atoi(answer + 4) != EPIPE);
}

/* Records an answer with codes as a read of as many samples as were taken. */
static int note_codes(int file, int subdevice, int result)
{
	char text[SHORT_LINE];
	uint64_t taken = 0;
	if (!record_is_there() || !was_answered())
		return result;
	if (!result)
		answer_numbers(&taken, 1);
	char *end = put_word(put_start(text, "read", file, subdevice), taken);
	*end++ = '\n';
	if (!taken && says_nothing_new(server_answer()))
		record_question(text, end - text, server_answer());
	else
		record_line(text, end - text);
	return result;
}

/* Samples in codes. */
int question_codes(int file, int subdevice, unsigned most)
{
	return note_codes(file, subdevice, ask_loudly(form_question("codes", file, subdevice, most)));
}

/* Like question_codes, at the time at which so many samples are there, or the command or the signals have ended. Then it is
 * that time. */
int question_fetch(int file, int subdevice, unsigned wanted, unsigned most)
{
	char text[SHORT_LINE];
	uint64_t time;
	int length = form_question("fetch", file, subdevice, wanted);
	int result = ask_loudly(put_word(line + length, most) - line);
	if (!was_answered())
		return result;
	if (record_is_there())
		record_line(text, put_contents(text, file, subdevice));
	if (!result && answer_numbers(&time, 1) == 1)
		time_to(time);
	return server_hear(note_output) ? -EIO : note_codes(file, subdevice, answer_error());
}

/* A question that has no time, and changes nothing. It stands in no record. */
int question_untimed(const char *key, const char *words, void (*each)(char *line))
{
	int length = snprintf(line, sizeof line, "%s %s", key, words);
	return each ? ask(length, each) : ask_loudly(length);
}

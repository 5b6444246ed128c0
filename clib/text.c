/*
 * The board's text: a file up to its line `session`. Where the file has no line `signals`, one with the longest horizon
 * stands at the board's end, and where it has no `session`, that one. What the program refuses is told with the file's
 * own line.
 */
#define _GNU_SOURCE
#include "device.h"
#include "server.h"
#include <errno.h>
#include <fcntl.h>
#include <stdio.h>
#include <stdlib.h>
#include <string.h>
#include <sys/syscall.h>
#include <unistd.h>

/* the longest text that the program takes */
#define MOST_BYTES (1 << 20)
/* the signals part of a board that has none, with the longest horizon, and the same of a wider text */
#define SILENCE "signals 1000000000000\nsession\n"
#define WIDE_SILENCE "signals 1000000000000000\nsession\n"
/* how much of a line that is refused is shown */
#define MOST_SHOWN 200

static int starts_with_word(const char *line, const char *word)
{
	line += strspn(line, " \t\r");
	size_t length = strlen(word);
	return !strncmp(line, word, length) && (!line[length] || strchr(" \t\r\n", line[length]));
}

/* Looks for the lines `signals` and `session`, and keeps the text up to where it is complete or has to be completed.
 * Answers what is to be put at the end. */
static const char *cut(struct text *text)
{
	int has_signals = 0, has_session = 0, is_wide = 0;
	char *line = text->bytes, *end = text->bytes + text->length;
	for (text->lines = 0; line < end && !has_session; text->lines++) {
		char *feed = memchr(line, '\n', end - line);
		has_signals |= starts_with_word(line, "signals");
		is_wide |= starts_with_word(line, "zendrouz");
		has_session = starts_with_word(line, "session");
		if (has_session && !has_signals)
			break;
		line = feed ? feed + 1 : end;
	}
	text->length = line - text->bytes;
	if (has_signals)
		return has_session ? "" : "session\n";
	return is_wide ? WIDE_SILENCE : SILENCE;
}

/* Puts the end of a text after what was kept of it. */
static void complete(struct text *text, const char *rest)
{
	char *end = text->bytes + text->length;
	if (text->length && end[-1] != '\n')
		*end++ = '\n';
	strcpy(end, rest);
	text->length = end + strlen(rest) - text->bytes;
}

/* The file's bytes, at most one more than may be. It is opened by the kernel itself, since `open` of a board's file
 * would open the board. */
static int read_bytes(const char *path, struct text *text)
{
	int descriptor = syscall(SYS_openat, AT_FDCWD, path, O_RDONLY | O_CLOEXEC), error = 0;
	if (descriptor < 0)
		return -errno;
	text->bytes = calloc(1, MOST_BYTES + 64);
	text->length = 0;
	while (text->bytes && text->length <= MOST_BYTES && !error) {
		ssize_t count = syscall(SYS_read, descriptor, text->bytes + text->length, MOST_BYTES + 1 - text->length);
		if (count == 0)
			break;
		if (count < 0)
			error = errno;
		else
			text->length += count;
	}
	syscall(SYS_close, descriptor);
	return text->bytes ? -error : -ENOMEM;
}

/* Reads a board's file. Its bytes are to be freed, also where that fails. */
int text_read(const char *path, struct text *text)
{
	int result = read_bytes(path, text);
	if (result)
		message("%s: %s", path, strerror(-result));
	else
		complete(text, cut(text));
	return result;
}

/* Where a line of the text starts, and its length without what ends it. */
static const char *find_line(const struct text *text, unsigned number, size_t *length)
{
	const char *line = text->bytes, *end = text->bytes + text->length, *feed;
	while (--number)
		line = (const char *)memchr(line, '\n', end - line) + 1;
	feed = memchr(line, '\n', end - line);
	*length = (feed ? feed : end) - line;
	if (*length && line[*length - 1] == '\r')
		--*length;
	return line;
}

/* A line as it stands, with bytes that a terminal doesn't show as \xNN. */
static void show_line(const struct text *text, unsigned number, char *shown)
{
	size_t length;
	const char *line = find_line(text, number, &length);
	for (size_t i = 0; i < length && i < MOST_SHOWN; i++)
		shown += sprintf(shown, line[i] == '\t' || (line[i] >= ' ' && line[i] <= '~') ? "%c" : "\\x%02x", line[i] & 255);
	strcpy(shown, length > MOST_SHOWN ? ".." : "");
}

/* Says what the program refused. A line beyond the file's last one was put there by `complete`. */
void text_say_refusal(const char *path, const struct text *text, const char *answer)
{
	unsigned number = 0;
	static char shown[4 * MOST_SHOWN + 3];
	char cause[32] = "";
	sscanf(answer, "refused %u %31s", &number, cause);
	if (number && number <= text->lines) {
		show_line(text, number, shown);
		message("%s:%u: refused %s: %s", path, number, cause, shown);
	} else if (!number)
		message("%s: refused %s: it has more than %d bytes", path, cause, MOST_BYTES);
	else if (!text->lines)
		message("%s: refused %s: it has no line", path, cause);
	else
		message("%s: refused %s after line %u, the board's last: %s", path, cause, text->lines,
			strcmp(cause, "Missing") ? "its last block breaks a rule" : "a line is missing there");
}

/*
 * The settings of time, which the client has in its environment (docs/CLIENTS.md). They are read when a board is opened
 * first. One that can't be read refuses the board, with a line that says what to give.
 */
#define _GNU_SOURCE
#include "device.h"
#include "server.h"
#include <errno.h>
#include <stdlib.h>
#include <string.h>
#include <time.h>

#define USUAL_CALL 1000
#define MOST_DIGITS 15
#define FIRST_YEAR 2000
#define LAST_YEAR 2037

static int refuse(const char *name, const char *value, const char *wanted)
{
	message("%s=%s: that can't be read. Give %s, or unset it", name, value, wanted);
	return -EINVAL;
}

/* Returns a word of the environment, or NULL if there is none or it's empty. */
static const char *word_of(const char *name)
{
	const char *word = getenv(name);
	return word && *word ? word : NULL;
}

/* Reads digits up to `end`. Returns whether there are some, not too many, and nothing else. */
static int read_digits(const char *text, const char *end, uint64_t *number)
{
	*number = 0;
	if (text == end || end - text > MOST_DIGITS)
		return 0;
	for (; text < end && *text >= '0' && *text <= '9'; text++)
		*number = *number * 10 + (*text - '0');
	return text == end;
}

static int read_call(void)
{
	const char *name = "ZENDROUZ_CALL_NS", *value = getenv(name);
	device->call_time = USUAL_CALL;
	if (!value || read_digits(value, value + strlen(value), &device->call_time))
		return 0;
	return refuse(name, value, "a number of nanoseconds, in digits alone such as 1000");
}

/* Reads a number with a point or without. The client's language may have another sign for the point, so strtod isn't used. */
static int read_pace(void)
{
	const char *name = "ZENDROUZ_PACE", *value = getenv(name);
	uint64_t whole, parts = 0;
	device->pace = 0;
	if (!value)
		return 0;
	const char *point = strchrnul(value, '.'), *end = value + strlen(value);
	if (read_digits(value, point, &whole) && (!*point || read_digits(point + 1, end, &parts))) {
		double fraction = parts;
		for (const char *digit = point + 1; digit < end; digit++)
			fraction /= 10;
		device->pace = whole + fraction;
	}
	return device->pace > 0 ? 0 : refuse(name, value, "a number above 0, such as 1 or 0.5");
}

static int read_wake(void)
{
	static const char *const words[] = { [WAKE_SAMPLE] = "sample", [WAKE_SCAN] = "scan", [WAKE_FULL] = "full" };
	const char *name = "ZENDROUZ_WAKE", *value = word_of(name);
	device->wake = WAKE_FULL;
	for (enum wake i = WAKE_SAMPLE; value && i <= WAKE_FULL; i++)
		if (!strcmp(value, words[i])) {
			device->wake = i;
			return 0;
		}
	return value ? refuse(name, value, "sample, scan or full") : 0;
}

static int read_clock(void)
{
	const char *name = "ZENDROUZ_CLOCK", *value = word_of(name);
	device->shows_time = device->pace <= 0 && !(value && !strcmp(value, "system"));
	return !value || !strcmp(value, "board") || !strcmp(value, "system") ? 0 : refuse(name, value, "board or system");
}

static int read_start(void)
{
	const char *name = "ZENDROUZ_START", *value = word_of(name);
	struct tm date = { 0 };
	device->start_date = 0;
	if (!value)
		return 0;
	const char *end = strptime(value, "%Y-%m-%dT%H:%M:%SZ", &date);
	if (!end || *end || date.tm_year + 1900 < FIRST_YEAR || date.tm_year + 1900 > LAST_YEAR)
		return refuse(name, value, "a date from 2000 to 2037, such as 2030-01-01T00:00:00Z");
	device->start_date = timegm(&date);
	return 0;
}

/* Reads all settings. Returns 0, or -EINVAL if one can't be read. */
int settings_read(void)
{
	int result = read_call();
	if (!result)
		result = read_pace();
	if (!result)
		result = read_wake();
	if (!result)
		result = read_clock();
	return result ? result : read_start();
}

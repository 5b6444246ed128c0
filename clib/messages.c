/*
 * Lines on standard error. They are written by one system call: a stream of the C library takes eight kilobytes of the
 * client's stack for each, and may be one that the client has closed.
 */
#define _GNU_SOURCE
#include "device.h"
#include "server.h"
#include <limits.h>
#include <pthread.h>
#include <stdarg.h>
#include <stdio.h>
#include <sys/syscall.h>
#include <unistd.h>

static pthread_mutex_t lock = PTHREAD_MUTEX_INITIALIZER;

void messages_hold(void)
{
	pthread_mutex_lock(&lock);
}

void messages_let_go(void)
{
	pthread_mutex_unlock(&lock);
}

/* Writes `zendrouz: ` and a line. One that is too long is cut off. */
void message(const char *form, ...)
{
	static const char name[] = "zendrouz: ";
	static char text[sizeof name + 3 * PATH_MAX];
	struct quiet quiet;
	va_list values;
	quiet_begin(&quiet);
	messages_hold();
	int start = snprintf(text, sizeof text, "%s", name), room = sizeof text - start - 1;
	va_start(values, form);
	int length = vsnprintf(text + start, room, form, values);
	va_end(values);
	length = start + (length < 0 ? 0 : length < room ? length : room - 1);
	text[length] = '\n';
	syscall(SYS_write, STDERR_FILENO, text, length + 1);
	messages_let_go();
	quiet_end(&quiet);
}

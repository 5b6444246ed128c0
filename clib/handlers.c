/*
 * The C library's names that set a signal's handler. Calls of the device block signals once there is a handler, which could
 * call the device, too (quiet.c). Handlers that were set before a board is opened are looked for then. So those are found that
 * no name of the C library has set.
 */
#define _GNU_SOURCE
#include "names.h"
#include <signal.h>

/* old programs call these, which their headers advise against or don't have any more */
#pragma GCC diagnostic ignored "-Wdeprecated-declarations"
sighandler_t bsd_signal(int number, sighandler_t handler);
sighandler_t ssignal(int number, sighandler_t handler);
sighandler_t sysv_signal(int number, sighandler_t handler);
sighandler_t __sysv_signal(int number, sighandler_t handler);
sighandler_t sigset(int number, sighandler_t handler);
int __sigaction(int number, const struct sigaction *action, struct sigaction *old);

static int is_handler(sighandler_t handler)
{
	return handler != SIG_DFL && handler != SIG_IGN && handler != SIG_HOLD && handler != SIG_ERR;
}

/* Looks for handlers that the client has set by now. */
void handlers_look(void)
{
	struct sigaction action;
	for (int i = 1; i < NSIG; i++)
		if (!REAL(sigaction)(i, NULL, &action) && is_handler(action.sa_handler)) {
			quiet_block_signals();
			return;
		}
}

PUBLIC int sigaction(int number, const struct sigaction *action, struct sigaction *old)
{
	if (action && is_handler(action->sa_handler))
		quiet_block_signals();
	return REAL(sigaction)(number, action, old);
}

PUBLIC int __sigaction(int number, const struct sigaction *action, struct sigaction *old)
{
	return sigaction(number, action, old);
}

#define SETTER(name) \
	PUBLIC sighandler_t name(int number, sighandler_t handler) \
	{ \
		if (is_handler(handler)) \
			quiet_block_signals(); \
		return REAL(name)(number, handler); \
	}

SETTER(signal)
SETTER(bsd_signal)
SETTER(ssignal)
SETTER(sysv_signal)
SETTER(__sysv_signal)
SETTER(sigset)

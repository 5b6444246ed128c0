/*
 * What happens when the client makes a child by fork. All locks of this process are held up to then, so the child finds
 * none held by a thread that it doesn't have, and nothing half changed. The order is the one in which calls take them.
 *
 * The lock of the device itself is shared with the children, and isn't held: a child may be made while another thread is
 * within a call, which goes on in the parent.
 */
#include "descriptors.h"
#include "device.h"
#include "server.h"
#include <pthread.h>

static struct quiet outside;

static void hold_all(void)
{
	struct quiet before;
	quiet_begin(&before);
	quiet_block_signals();
	device_hold();
	threads_hold();
	turns_hold();
	descriptors_hold();
	messages_hold();
	device_share();
	outside = before;
}

static void let_go_of_all(void)
{
	struct quiet before = outside;
	messages_let_go();
	descriptors_let_go();
	turns_let_go();
	threads_let_go();
	device_let_go();
	quiet_end(&before);
}

static void begin_child(void)
{
	quiet_begin_child();
	turns_begin_child();
	descriptors_begin_child();
	sets_begin_child();
	record_begin_child();
	device_begin_child();
	let_go_of_all();
}

__attribute__((constructor)) static void prepare_for_children(void)
{
	pthread_atfork(hold_all, let_go_of_all, begin_child);
}

/*
 * The C library's own functions behind the names of this library.
 */
#define _GNU_SOURCE
#include "names.h"
#include <dlfcn.h>
#include <string.h>

/*
 * Names of which the C library has two functions, an old one for programs of long ago, with another layout of a condition
 * variable. Before version 2.36 the next function of a name is the old one, which ends a program of today. So these are
 * asked for with the version that programs have used since.
 */
static const char *const versioned[] = { "pthread_cond_signal", "pthread_cond_broadcast", "pthread_cond_timedwait" };
#define VERSION "GLIBC_2.3.2"

static const char *const old[] = { "GLIBC_2.2.5", "GLIBC_2.4" };

/* Returns the next function of a name. */
void *names_find(const char *name)
{
	for (size_t i = 0; i < sizeof versioned / sizeof *versioned; i++) {
		void *found = strcmp(versioned[i], name) ? NULL : dlvsym(RTLD_NEXT, name, VERSION);
		if (found)
			return found;
	}
	/* on other machines there is no such version, and only one function */
	void *found = dlsym(RTLD_NEXT, name);
	/* names that only old programs call are found by their versions alone */
	for (size_t i = 0; !found && i < sizeof old / sizeof *old; i++)
		found = dlvsym(RTLD_NEXT, name, old[i]);
	return found;
}

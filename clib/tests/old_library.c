/*
 * Finds the next function of a name as the C library did before version 2.36: the oldest one that it has of the name. Loaded
 * after the device.
 */
#define _GNU_SOURCE
#include <dlfcn.h>
#include <stddef.h>

#define OLDEST "GLIBC_2.2.5"

void *dlsym(void *restrict where, const char *restrict name)
{
	static void *(*find)(void *, const char *);
	if (!find)
		find = (void *(*)(void *, const char *))dlvsym(RTLD_NEXT, "dlsym", "GLIBC_2.34");
	if (!find)
		find = (void *(*)(void *, const char *))dlvsym(RTLD_NEXT, "dlsym", OLDEST);
	void *old = where == RTLD_NEXT ? dlvsym(RTLD_NEXT, name, OLDEST) : NULL;
	return old ? old : find(where, name);
}

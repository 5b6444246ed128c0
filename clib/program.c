/*
 * Where the program that answers stands: ZENDROUZ_CORE names it, or it is near the library, or in PATH.
 */
#define _GNU_SOURCE
#include "server.h"
#include "versions.h"
#include <dlfcn.h>
#include <fcntl.h>
#include <limits.h>
#include <stdio.h>
#include <stdlib.h>
#include <string.h>
#include <sys/stat.h>
#include <sys/syscall.h>
#include <unistd.h>

/* from the library's folder: an archive of one folder, bin/ beside lib/, bin/ beside lib/zendrouz/, the repository */
static const char *const places[] = { "", "../bin/", "../../bin/", "../../crates/comedi_serve/out/" };

/* the library's folder, links followed, with a slash at its end; empty where it isn't known */
static char folder[PATH_MAX];
/* the library as it was loaded: a link may stand for a folder with a colon, where LD_PRELOAD ends a name */
static char library[2 * PATH_MAX];

/* The library's name may be relative to the folder in which the client starts, so it is looked up at once. */
__attribute__((constructor)) static void note_folder(void)
{
	Dl_info found;
	const char *name = dladdr(folder, &found) && found.dli_fname ? found.dli_fname : "";
	if (*name == '/' || !getcwd(folder, sizeof folder))
		*folder = 0;
	snprintf(library, sizeof library, "%s/%s", folder, name);
	if (!realpath(name, folder))
		*folder = 0;
	char *slash = strrchr(folder, '/');
	if (slash)
		slash[1] = 0;
}

/* The library that is loaded into the program: this one, or what a test has that is none. */
const char *program_library(void)
{
#ifdef LIBRARY
	return LIBRARY;
#endif
	return library;
}

static int is_program(const char *path)
{
	struct stat state;
	return !syscall(SYS_newfstatat, AT_FDCWD, path, &state, 0) && S_ISREG(state.st_mode) && !access(path, X_OK);
}

const char *program_path(void)
{
	static char path[PATH_MAX + 64];
	const char *named = getenv("ZENDROUZ_CORE");
	if (named && *named)
		return named;
	for (size_t i = 0; *folder && i < sizeof places / sizeof *places; i++) {
		snprintf(path, sizeof path, "%s%scomedi_serve", folder, places[i]);
		if (is_program(path))
			return path;
	}
	return "comedi_serve";
}

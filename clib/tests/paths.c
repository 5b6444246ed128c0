/*
 * What the device's file is: a character device 98:0, by its path and by a descriptor, which can be read and written, also at a
 * place and by a stream. A name that ends in .board is a board for who reads and writes it, and else a file.
 *
 * On wide.board sample k comes at 3,000 + k * 1,000,000 ns and has the code k.
 */
#define _GNU_SOURCE
#include "client.h"
#include <dlfcn.h>
#include <fcntl.h>
#include <linux/fs.h>
#include <sys/ioctl.h>
#include <sys/stat.h>
#include <sys/sysmacros.h>
#include <sys/uio.h>

#define NAME "/dev/comedi0"
/* the version of a program's struct stat for older C libraries */
#define VERSION 1

static comedi_t *device;
static int descriptor;
static const char *volatile no_name;

static void say(const char *what, int result, const struct stat *file)
{
	if (result)
		printf("%s: %s\n", what, strerror(errno));
	else
		printf("%s: %s %u:%u, %ld bytes\n", what, S_ISCHR(file->st_mode) ? "a character device" : S_ISREG(file->st_mode) ? "a file" : "something else",
			major(file->st_rdev), minor(file->st_rdev), (long)file->st_size);
	memset((void *)file, 0, sizeof *file);
}

static void ask_what_it_is(void)
{
	struct stat file;
	struct statx extended;
	say("stat", stat(NAME, &file), &file);
	say("stat of another", stat("/dev/comedi3", &file), &file);
	say("stat of a subdevice", stat("/dev/comedi0_subd2", &file), &file);
	say("stat of nothing", stat("/dev/comed", &file), &file);
	say("lstat", lstat(NAME, &file), &file);
	say("fstat", fstat(descriptor, &file), &file);
	say("fstatat", fstatat(AT_FDCWD, NAME, &file, 0), &file);
	say("fstatat of a descriptor", fstatat(descriptor, "", &file, AT_EMPTY_PATH), &file);
	if (!statx(AT_FDCWD, NAME, 0, STATX_BASIC_STATS, &extended))
		printf("statx: %s %u:%u\n", S_ISCHR(extended.stx_mode) ? "a character device" : "something else", extended.stx_rdev_major, extended.stx_rdev_minor);
	if (!statx(descriptor, "", AT_EMPTY_PATH, STATX_BASIC_STATS, &extended))
		printf("statx of a descriptor: %s\n", S_ISCHR(extended.stx_mode) ? "a character device" : "something else");
	int (*old_stat)(int, const char *, struct stat *) = dlsym(RTLD_DEFAULT, "__xstat");
	int (*old_fstat)(int, int, struct stat *) = dlsym(RTLD_DEFAULT, "__fxstat");
	say("stat of an old program", old_stat(VERSION, NAME, &file), &file);
	say("its fstat", old_fstat(VERSION, descriptor, &file), &file);
	say("its stat of a file", old_stat(VERSION, "/dev/null", &file), &file);
	report("access", access(NAME, R_OK | W_OK));
	report("access to run it", access(NAME, X_OK));
	report("faccessat", faccessat(AT_FDCWD, NAME, F_OK, AT_EACCESS));
	report("euidaccess", euidaccess(NAME, W_OK));
	report("access to nothing", access("/dev/comed", F_OK));
}

static void open_otherwise(void)
{
	report("open as a folder", open(NAME, O_RDONLY | O_DIRECTORY));
	report("open as a new file", open(NAME, O_RDWR | O_CREAT | O_EXCL, 0600));
	report("open past the system's memory", open(NAME, O_RDWR | O_DIRECT));
	report("open of no name", open(no_name, O_RDONLY));
	int appends = open(NAME, O_RDWR | O_APPEND | O_NONBLOCK | O_NOFOLLOW), flags = fcntl(appends, F_GETFL), block = 0;
	printf("its flags:%s%s%s%s\n", (flags & O_ACCMODE) == O_RDWR ? " O_RDWR" : "", flags & O_APPEND ? " O_APPEND" : "",
		flags & O_NONBLOCK ? " O_NONBLOCK" : "", flags & O_NOFOLLOW ? " O_NOFOLLOW" : "");
	report("FIGETBSZ", ioctl(appends, FIGETBSZ, &block));
	printf("a block: %d\n", block);
	close(appends);
}

/* Reads at places and by streams. */
static void read_otherwise(void)
{
	sampl_t samples[4] = { 0 };
	lsampl_t value;
	struct iovec piece = { samples, 2 };
	report("command", give_command(device, 0, TRIG_NOW, MILLISECOND, 8));
	usleep(20000);
	report("pread", pread(descriptor, samples, 4, 100));
	printf("samples: %u %u\n", samples[0], samples[1]);
	report("pread before the start", pread(descriptor, samples, 4, -1));
	report("preadv", preadv(descriptor, &piece, 1, 7));
	report("lseek", lseek(descriptor, 1000, SEEK_SET));
	FILE *stream = fdopen(dup(descriptor), "r");
	printf("fread: %zu, of descriptor %s, ", fread(samples, 2, 3, stream), fileno(stream) > descriptor ? "its own" : "another");
	printf("samples: %u %u %u\n", samples[0], samples[1], samples[2]);
	printf("fread: %zu, ", fread(samples, 2, 3, stream));
	printf("samples: %u %u, ended: %s\n", samples[0], samples[1], feof(stream) ? "yes" : "no");
	report("fclose", fclose(stream));
	report("pwrite", pwrite(descriptor, samples, 2, 0));
	report("a value", comedi_data_read(device, 0, 1, 0, AREF_GROUND, &value));
}

static void write_by_stream(void)
{
	static const sampl_t words[3];
	FILE *stream = fopen(NAME, "r+");
	if (!stream)
		return;
	printf("fwrite: %zu\n", fwrite(words, 2, 3, stream));
	report("fflush without a command", fflush(stream) ? -1 : 0);
	report("fclose", fclose(stream) ? -1 : 0);
	printf("fdopen to write of one to read: %s\n", fdopen(open(NAME, O_RDONLY), "w") ? "a stream" : strerror(errno));
}

/* The board's text has another use than the board. */
static void read_text(void)
{
	char name[200], text[64] = "";
	snprintf(name, sizeof name, "%s/copy.board", getenv("CLIB_CHECK"));
	int board = open(getenv("ZENDROUZ_BOARD"), O_RDONLY), copy = open(name, O_WRONLY | O_CREAT | O_TRUNC, 0600);
	ssize_t bytes = read(board, text, 40);
	printf("text: %.9s\n", text);
	printf("a copy: %s\n", write(copy, text, bytes) == bytes ? "written" : strerror(errno));
	close(board);
	close(copy);
	unlink(name);
}

int main(void)
{
	device = open_board();
	descriptor = comedi_fileno(device);
	ask_what_it_is();
	open_otherwise();
	read_otherwise();
	write_by_stream();
	read_text();
	comedi_close(device);
	return 0;
}

/*
 * A board that is named by its own file, from a folder on: a name that ends in .board is the board for who reads and writes it.
 * Others make the file, and read it.
 */
#define _GNU_SOURCE
#include "client.h"
#include <fcntl.h>
#include <sys/ioctl.h>
#include <sys/stat.h>

static char text[1 << 14];

/* Copies the board's text to a file of that name. */
static int copy_text(int folder)
{
	int from = open(getenv("ZENDROUZ_BOARD"), O_RDONLY), to = openat(folder, "copy.board", O_WRONLY | O_CREAT | O_TRUNC, 0600);
	ssize_t bytes = read(from, text, sizeof text);
	int is_copied = bytes > 0 && write(to, text, bytes) == bytes;
	close(from);
	close(to);
	return is_copied;
}

int main(void)
{
	comedi_devinfo board = { 0 };
	char name[200];
	snprintf(name, sizeof name, "%s/folder", getenv("CLIB_CHECK"));
	mkdir(name, 0700);
	int folder = open(name, O_RDONLY | O_DIRECTORY);
	printf("the text is copied: %s\n", copy_text(folder) ? "yes" : "no");
	int descriptor = openat(folder, "copy.board", O_RDWR);
	report("its board", ioctl(descriptor, COMEDI_DEVINFO, &board));
	printf("its name: %s\n", board.board_name);
	close(descriptor);
	unlinkat(folder, "copy.board", 0);
	rmdir(name);
	return 0;
}

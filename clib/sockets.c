/*
 * Whether any process still has a file of the device open. Its descriptors are a socket, and the kernel lists all sockets of
 * this kind that are there, with their inodes.
 */
#define _GNU_SOURCE
#include "descriptors.h"
#include <stdlib.h>

#define LIST "/proc/net/unix"
/* in a line of the list: which word is the inode, counted from 0 */
#define INODE_WORD 6

static int has_inode(const char *line, const void *inode)
{
	return strtoull(listings_word(line, INODE_WORD), NULL, 10) == *(const uint64_t *)inode;
}

/* Returns whether a process has the socket of an inode, or -1 if the kernel doesn't say so. Called within the device. */
int sockets_has(uint64_t inode)
{
	return listings_have(LIST, has_inode, &inode);
}

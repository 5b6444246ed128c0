/*
 * The C library's names that ask what a file is, by its path or by a descriptor. The device is a character device, as udev makes
 * it, that belongs to the client. It's in no list of a folder's files.
 */
#define _GNU_SOURCE
#include "device.h"
#include "names.h"
#include <errno.h>
#include <fcntl.h>
#include <string.h>
#include <sys/stat.h>
#include <sys/syscall.h>
#include <sys/sysmacros.h>
#include <sys/xattr.h>
#include <unistd.h>

/* the number of the kernel's devices of Comedi */
#define MAJOR 98
#define BLOCK 4096
/* what the file of minor 0 has in its folder, unless the folder has another file with it: nobody looks it up */
#define FIRST_INODE 9800

/* Programs for C libraries before 2.33 call these, of which the headers of later ones have nothing. */
int __xstat(int version, const char *path, struct stat *to);
int __xstat64(int version, const char *path, struct stat64 *to);
int __lxstat(int version, const char *path, struct stat *to);
int __lxstat64(int version, const char *path, struct stat64 *to);
int __fxstat(int version, int descriptor, struct stat *to);
int __fxstat64(int version, int descriptor, struct stat64 *to);
int __fxstatat(int version, int folder, const char *path, struct stat *to, int flags);
int __fxstatat64(int version, int folder, const char *path, struct stat64 *to, int flags);

_Static_assert(sizeof(struct stat) == sizeof(struct stat64), "both are the same here");

/* Fills in what the device is. Its folder tells where it is and since when. Returns 0. */
static int fill(void *to, int minor)
{
	struct stat file = { .st_ino = FIRST_INODE + minor, .st_mode = S_IFCHR | 0660, .st_nlink = 1, .st_uid = geteuid(), .st_gid = getegid(),
		.st_rdev = makedev(MAJOR, minor), .st_blksize = BLOCK }, folder;
	if (!syscall(SYS_newfstatat, AT_FDCWD, "/dev", &folder, 0)) {
		file.st_dev = folder.st_dev;
		file.st_atim = folder.st_atim;
		file.st_mtim = folder.st_mtim;
		file.st_ctim = folder.st_ctim;
	}
	memcpy(to, &file, sizeof file);
	return 0;
}

static int fill_of_descriptor(void *to, int file)
{
	return fill(to, device->file[file].minor);
}

/* Returns whether a path and flags stand for the descriptor that is given as a folder. */
static int is_descriptor(const char *path, int flags)
{
	return flags & AT_EMPTY_PATH && (!path || !*path);
}

#define BY_PATH(name, type) \
	PUBLIC int name(const char *restrict path, struct type *restrict to) \
	{ \
		return device_has_name(path) ? fill(to, device_minor(path)) : REAL(name)(path, to); \
	}

#define BY_DESCRIPTOR(name, type) \
	PUBLIC int name(int descriptor, struct type *to) \
	{ \
		int file = names_file(descriptor); \
		return file == NO_FILE ? REAL(name)(descriptor, to) : fill_of_descriptor(to, file); \
	}

#define BY_BOTH(name, type) \
	PUBLIC int name(int folder, const char *restrict path, struct type *restrict to, int flags) \
	{ \
		int file = is_descriptor(path, flags) ? names_file(folder) : NO_FILE; \
		if (file != NO_FILE) \
			return fill_of_descriptor(to, file); \
		return device_has_name(path) ? fill(to, device_minor(path)) : REAL(name)(folder, path, to, flags); \
	}

#define BY_PATH_OF_OLD(name, type) \
	PUBLIC int name(int version, const char *path, struct type *to) \
	{ \
		return device_has_name(path) ? fill(to, device_minor(path)) : REAL(name)(version, path, to); \
	}

#define BY_DESCRIPTOR_OF_OLD(name, type) \
	PUBLIC int name(int version, int descriptor, struct type *to) \
	{ \
		int file = names_file(descriptor); \
		return file == NO_FILE ? REAL(name)(version, descriptor, to) : fill_of_descriptor(to, file); \
	}

#define BY_BOTH_OF_OLD(name, type) \
	PUBLIC int name(int version, int folder, const char *path, struct type *to, int flags) \
	{ \
		int file = is_descriptor(path, flags) ? names_file(folder) : NO_FILE; \
		if (file != NO_FILE) \
			return fill_of_descriptor(to, file); \
		return device_has_name(path) ? fill(to, device_minor(path)) : REAL(name)(version, folder, path, to, flags); \
	}

BY_PATH(stat, stat)
BY_PATH(stat64, stat64)
BY_PATH(lstat, stat)
BY_PATH(lstat64, stat64)
BY_DESCRIPTOR(fstat, stat)
BY_DESCRIPTOR(fstat64, stat64)
BY_BOTH(fstatat, stat)
BY_BOTH(fstatat64, stat64)
BY_PATH_OF_OLD(__xstat, stat)
BY_PATH_OF_OLD(__xstat64, stat64)
BY_PATH_OF_OLD(__lxstat, stat)
BY_PATH_OF_OLD(__lxstat64, stat64)
BY_DESCRIPTOR_OF_OLD(__fxstat, stat)
BY_DESCRIPTOR_OF_OLD(__fxstat64, stat64)
BY_BOTH_OF_OLD(__fxstatat, stat)
BY_BOTH_OF_OLD(__fxstatat64, stat64)

static struct statx_timestamp time_of(struct timespec time)
{
	return (struct statx_timestamp){ .tv_sec = time.tv_sec, .tv_nsec = time.tv_nsec };
}

static int fill_extended(struct statx *to, int minor)
{
	struct stat file;
	fill(&file, minor);
	*to = (struct statx){ .stx_mask = STATX_BASIC_STATS, .stx_blksize = BLOCK, .stx_nlink = file.st_nlink, .stx_uid = file.st_uid,
		.stx_gid = file.st_gid, .stx_mode = file.st_mode, .stx_ino = file.st_ino, .stx_atime = time_of(file.st_atim),
		.stx_mtime = time_of(file.st_mtim), .stx_ctime = time_of(file.st_ctim), .stx_rdev_major = MAJOR, .stx_rdev_minor = minor,
		.stx_dev_major = major(file.st_dev), .stx_dev_minor = minor(file.st_dev) };
	return 0;
}

PUBLIC int statx(int folder, const char *restrict path, int flags, unsigned mask, struct statx *restrict to)
{
	int file = is_descriptor(path, flags) ? names_file(folder) : NO_FILE;
	if (file != NO_FILE)
		return fill_extended(to, device->file[file].minor);
	return device_has_name(path) ? fill_extended(to, device_minor(path)) : REAL(statx)(folder, path, flags, mask, to);
}

/* Checks whether the device may be used so. It can be read and written, but it isn't a program. */
static int may_use(int how)
{
	if (how & ~(R_OK | W_OK | X_OK))
		return names_answer(-EINVAL);
	return names_answer(how & X_OK ? -EACCES : 0);
}

PUBLIC int access(const char *path, int how)
{
	return device_has_name(path) ? may_use(how) : REAL(access)(path, how);
}

PUBLIC int eaccess(const char *path, int how)
{
	return device_has_name(path) ? may_use(how) : REAL(eaccess)(path, how);
}

PUBLIC int euidaccess(const char *path, int how)
{
	return device_has_name(path) ? may_use(how) : REAL(euidaccess)(path, how);
}

PUBLIC int faccessat(int folder, const char *path, int how, int flags)
{
	return device_has_name(path) ? may_use(how) : REAL(faccessat)(folder, path, how, flags);
}

/* The device has no attributes beside those. `ls -l` asks for them. */
#define ATTRIBUTE(name, list) \
	PUBLIC ssize_t name(const char *path, const char *attribute, void *to, size_t bytes) \
	{ \
		return device_has_name(path) ? names_answer(-ENODATA) : REAL(name)(path, attribute, to, bytes); \
	} \
	PUBLIC ssize_t list(const char *path, char *to, size_t bytes) \
	{ \
		return device_has_name(path) ? 0 : REAL(list)(path, to, bytes); \
	}

ATTRIBUTE(getxattr, listxattr)
ATTRIBUTE(lgetxattr, llistxattr)

/*
 * What differs between versions of the C library, from 2.31 on: which names are linked, and what older headers don't have.
 *
 * Version 2.34 joined several libraries into one and gave some names a new version, though they do the same. With their first
 * versions the device can also be loaded where the C library is older.
 */
#ifndef VERSIONS_H
#define VERSIONS_H

#include <linux/close_range.h>
#include <signal.h>
#include <sys/syscall.h>
#include <time.h>

#ifndef SYS_close_range
#define SYS_close_range 436
#endif
#ifndef CLOSE_RANGE_CLOEXEC
#define CLOSE_RANGE_CLOEXEC (1u << 2)
#endif

struct epoll_event;
int close_range(unsigned first, unsigned last, int flags);
void closefrom(int first);
int epoll_pwait2(int set, struct epoll_event *events, int most, const struct timespec *time, const sigset_t *signals);

#if defined __x86_64__ && !defined __SANITIZE_ADDRESS__
#define LINK_VERSION(name, version) __asm__(".symver " #name "," #name "@GLIBC_" #version)
LINK_VERSION(dladdr, 2.2.5);
LINK_VERSION(dladdr1, 2.3.3);
LINK_VERSION(dlerror, 2.2.5);
LINK_VERSION(dlsym, 2.2.5);
LINK_VERSION(dlvsym, 2.2.5);
LINK_VERSION(pthread_mutex_consistent, 2.12);
LINK_VERSION(pthread_mutexattr_destroy, 2.2.5);
LINK_VERSION(pthread_mutexattr_init, 2.2.5);
LINK_VERSION(pthread_mutexattr_setpshared, 2.2.5);
LINK_VERSION(pthread_mutexattr_setrobust, 2.12);
LINK_VERSION(pthread_mutex_trylock, 2.2.5);
LINK_VERSION(pthread_sigmask, 2.2.5);
LINK_VERSION(pthread_testcancel, 2.2.5);
#endif

#endif

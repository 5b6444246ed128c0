/*
 * Waits of the C library that start late and end late, as on a busy machine: loaded behind the device. A signal that comes before
 * the kernel waits, or after it, is handled at once and ends nothing.
 */
#define _GNU_SOURCE
#include <dlfcn.h>
#include <errno.h>
#include <semaphore.h>
#include <sys/syscall.h>
#include <time.h>
#include <unistd.h>

#define MICROSECONDS 50

/* Lets time pass, whatever signals come. */
static void pass_time(void)
{
	struct timespec now, end;
	syscall(SYS_clock_gettime, CLOCK_MONOTONIC, &end);
	end.tv_nsec += MICROSECONDS * 1000;
	do
		syscall(SYS_clock_gettime, CLOCK_MONOTONIC, &now);
	while ((now.tv_sec - end.tv_sec) * 1000000000 + now.tv_nsec - end.tv_nsec < 0);
}

int sem_clockwait(sem_t *semaphore, clockid_t clock, const struct timespec *time)
{
	int (*real)(sem_t *, clockid_t, const struct timespec *) = dlsym(RTLD_NEXT, "sem_clockwait");
	pass_time();
	int result = real(semaphore, clock, time), error = errno;
	pass_time();
	errno = error;
	return result;
}

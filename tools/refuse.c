/* Refuses what a program asks of the system: with REFUSE=threads the start of a thread, with REFUSE=memory an allocation.
   That with the number REFUSE_AT is refused, from 1 on, and with REFUSE_MODE=after all that follow it too. Where one is
   refused, a file with the name REFUSE_TOLD is made. A thread is refused after 50 ms, when those that were started before
   it have come to where they wait. For LD_PRELOAD. */
#define _GNU_SOURCE
#include <dlfcn.h>
#include <errno.h>
#include <fcntl.h>
#include <pthread.h>
#include <stdatomic.h>
#include <stdlib.h>
#include <string.h>
#include <time.h>
#include <unistd.h>

enum kind { NOTHING, THREADS, MEMORY };

static enum kind wanted;
static long at;
static int goes_on;
static const char *told;
static atomic_long asked;

__attribute__((constructor)) static void begin(void)
{
    const char *kind = getenv("REFUSE"), *number = getenv("REFUSE_AT"), *mode = getenv("REFUSE_MODE");
    told = getenv("REFUSE_TOLD");
    at = number ? atol(number) : 0;
    goes_on = mode && !strcmp(mode, "after");
    if (at && kind)
        wanted = !strcmp(kind, "threads") ? THREADS : !strcmp(kind, "memory") ? MEMORY : NOTHING;
}

static int is_refused(enum kind kind)
{
    if (kind != wanted)
        return 0;
    long number = atomic_fetch_add(&asked, 1) + 1;
    if (number < at || (number > at && !goes_on))
        return 0;
    int file = told ? open(told, O_WRONLY | O_CREAT, 0600) : -1;
    if (file >= 0)
        close(file);
    errno = kind == MEMORY ? ENOMEM : EAGAIN;
    return 1;
}

typedef int starts(pthread_t *, const pthread_attr_t *, void *(*)(void *), void *);

int pthread_create(pthread_t *thread, const pthread_attr_t *how, void *(*work)(void *), void *with)
{
    if (is_refused(THREADS)) {
        nanosleep(&(struct timespec){ .tv_nsec = 50000000 }, NULL);
        return EAGAIN;
    }
    starts *real = (starts *)dlsym(RTLD_NEXT, "pthread_create");
    return real(thread, how, work, with);
}

extern void *__libc_malloc(size_t), *__libc_calloc(size_t, size_t), *__libc_realloc(void *, size_t), *__libc_memalign(size_t, size_t);

void *malloc(size_t size)
{
    return is_refused(MEMORY) ? NULL : __libc_malloc(size);
}

void *calloc(size_t count, size_t size)
{
    return is_refused(MEMORY) ? NULL : __libc_calloc(count, size);
}

void *realloc(void *old, size_t size)
{
    return is_refused(MEMORY) ? NULL : __libc_realloc(old, size);
}

void *aligned_alloc(size_t align, size_t size)
{
    return is_refused(MEMORY) ? NULL : __libc_memalign(align, size);
}

int posix_memalign(void **to, size_t align, size_t size)
{
    if (is_refused(MEMORY))
        return ENOMEM;
    *to = __libc_memalign(align, size);
    return *to ? 0 : ENOMEM;
}

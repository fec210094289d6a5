/* Refuses one request for memory of the program that it is loaded into: the one whose number, counted from 1, the
   variable REFUSE names. Without that number it refuses none. At the end it writes how many there were to the file
   that REFUSE_COUNT names. The C library's own requests are counted too. */
#define _GNU_SOURCE
#include <dlfcn.h>
#include <errno.h>
#include <fcntl.h>
#include <stdatomic.h>
#include <stdio.h>
#include <stdlib.h>
#include <sys/syscall.h>
#include <unistd.h>

static atomic_ulong made;
static unsigned long refused;

__attribute__((constructor)) static void begin(void)
{
    const char *number = getenv("REFUSE");
    refused = number ? strtoul(number, NULL, 10) : 0;
    atomic_store(&made, 0);
}

__attribute__((destructor)) static void end(void)
{
    const char *name = getenv("REFUSE_COUNT");
    int file = name ? open(name, O_WRONLY | O_CREAT | O_TRUNC, 0644) : -1;
    if (file >= 0) {
        dprintf(file, "%lu\n", atomic_load(&made));
        close(file);
    }
}

/* The program ends by this call, which runs no destructor. */
void _exit(int status)
{
    end();
    syscall(SYS_exit_group, status);
    __builtin_unreachable();
}

static int is_refused(void)
{
    return atomic_fetch_add(&made, 1) + 1 == refused;
}

void *malloc(size_t size)
{
    static void *(*next)(size_t);
    if (!next)
        next = dlsym(RTLD_NEXT, "malloc");
    return is_refused() ? NULL : next(size);
}

void *realloc(void *old, size_t size)
{
    static void *(*next)(void *, size_t);
    if (!next)
        next = dlsym(RTLD_NEXT, "realloc");
    return is_refused() ? NULL : next(old, size);
}

void *aligned_alloc(size_t alignment, size_t size)
{
    static void *(*next)(size_t, size_t);
    if (!next)
        next = dlsym(RTLD_NEXT, "aligned_alloc");
    return is_refused() ? NULL : next(alignment, size);
}

int posix_memalign(void **into, size_t alignment, size_t size)
{
    static int (*next)(void **, size_t, size_t);
    if (!next)
        next = dlsym(RTLD_NEXT, "posix_memalign");
    return is_refused() ? ENOMEM : next(into, alignment, size);
}

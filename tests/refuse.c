// Refuses the allocation whose number is in REFUSED, the thread whose number is in THREAD_REFUSED, and the socket whose
// number is in SOCKET_REFUSED, as a system does that has no descriptor free; with COUNTED set, prints the number of
// allocations. Where REFUSED_FROM names a file, allocations are counted once that file is there. Each write to standard
// error takes WRITES_TAKE milliseconds.
#define _GNU_SOURCE
#include <dlfcn.h>
#include <errno.h>
#include <pthread.h>
#include <stdio.h>
#include <stdlib.h>
#include <unistd.h>

static long count, refused;
static const char *from;
static void *(*inner_malloc)(size_t);
static void *(*inner_realloc)(void *, size_t);

static int is_refused(void)
{
    if (!inner_malloc) {
        const char *number = getenv("REFUSED");
        refused = number ? atol(number) : 0;
        from = getenv("REFUSED_FROM");
        inner_realloc = dlsym(RTLD_NEXT, "realloc");
        inner_malloc = dlsym(RTLD_NEXT, "malloc");
    }
    if (from && access(from, F_OK) != 0)
        return 0;
    return ++count == refused;
}

void *malloc(size_t size)
{
    return is_refused() ? NULL : inner_malloc(size);
}

void *realloc(void *old, size_t size)
{
    return is_refused() ? NULL : inner_realloc(old, size);
}

int pthread_create(pthread_t *thread, const pthread_attr_t *how, void *(*run)(void *), void *given)
{
    static int started;
    int (*inner)(pthread_t *, const pthread_attr_t *, void *(*)(void *), void *) =
        dlsym(RTLD_NEXT, "pthread_create");
    const char *number = getenv("THREAD_REFUSED");
    if (number && ++started == atoi(number))
        return EAGAIN;
    return inner(thread, how, run, given);
}

int socket(int domain, int type, int protocol)
{
    static int made;
    int (*inner)(int, int, int) = dlsym(RTLD_NEXT, "socket");
    const char *number = getenv("SOCKET_REFUSED");
    if (number && ++made == atoi(number)) {
        errno = ENFILE;
        return -1;
    }
    return inner(domain, type, protocol);
}

ssize_t write(int file, const void *bytes, size_t count)
{
    ssize_t (*inner)(int, const void *, size_t) = dlsym(RTLD_NEXT, "write");
    const char *millis = getenv("WRITES_TAKE");
    if (millis && file == STDERR_FILENO)
        usleep(1000 * atoi(millis));
    return inner(file, bytes, count);
}

__attribute__((destructor)) static void tell(void)
{
    char text[32];
    if (getenv("COUNTED"))
        write(2, text, snprintf(text, sizeof text, "allocations %ld\n", count));
}

/* A library to be preloaded: the request for memory of the number REFUSE_NTH is refused, and the file REFUSE_MARK is made then. */
#define _GNU_SOURCE
#include <dlfcn.h>
#include <errno.h>
#include <fcntl.h>
#include <stdlib.h>
#include <unistd.h>

static long number, nth = -1;

static int is_refused(void)
{
    if (nth < 0) {
        const char *word = getenv("REFUSE_NTH");
        nth = word ? atol(word) : 0;
    }
    if (++number != nth)
        return 0;
    const char *mark = getenv("REFUSE_MARK");
    int file = mark ? open(mark, O_CREAT | O_WRONLY, 0600) : -1;
    if (file >= 0)
        close(file);
    errno = ENOMEM;
    return 1;
}

void *malloc(size_t size)
{
    static void *(*next)(size_t);
    if (!next)
        next = dlsym(RTLD_NEXT, "malloc");
    return is_refused() ? NULL : next(size);
}

void *realloc(void *old, size_t size)
{
    static void *(*next)(void *, size_t);
    if (!next)
        next = dlsym(RTLD_NEXT, "realloc");
    return is_refused() ? NULL : next(old, size);
}

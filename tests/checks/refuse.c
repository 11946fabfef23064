/* Refuses a program's memory once: of its calls of malloc and realloc the one with the number REFUSED answers none, and
   the file REFUSAL is made. Preloaded. */
#define _GNU_SOURCE
#include <dlfcn.h>
#include <errno.h>
#include <fcntl.h>
#include <stdatomic.h>
#include <stdlib.h>
#include <unistd.h>

static atomic_long asked;

static int refuses(void)
{
    const char *number = getenv("REFUSED"), *name = getenv("REFUSAL");
    if (number == NULL || name == NULL || atomic_fetch_add(&asked, 1) + 1 != atol(number))
        return 0;
    close(open(name, O_CREAT | O_WRONLY, 0600));
    errno = ENOMEM;
    return 1;
}

void *malloc(size_t bytes)
{
    void *(*next)(size_t) = (void *(*)(size_t))dlsym(RTLD_NEXT, "malloc");
    return refuses() ? NULL : next(bytes);
}

void *realloc(void *old, size_t bytes)
{
    void *(*next)(void *, size_t) = (void *(*)(void *, size_t))dlsym(RTLD_NEXT, "realloc");
    return refuses() ? NULL : next(old, bytes);
}

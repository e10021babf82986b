/* Refuses one request for memory of a program, if this library is loaded before others (LD_PRELOAD):
   the one of the number REFUSE_NTH, counted from 1. It then creates the file REFUSE_MARK. Needs the
   Debian packages gcc and libc6-dev. */
#define _GNU_SOURCE
#include <dlfcn.h>
#include <fcntl.h>
#include <stdatomic.h>
#include <stdlib.h>
#include <string.h>
#include <unistd.h>

static atomic_ulong count;
static unsigned long nth;
static const char *mark;
static void *(*next_malloc)(size_t);
static void *(*next_realloc)(void *, size_t);

/* Only the program itself counts, from its main on. */
__attribute__((constructor)) static void begin(void)
{
    const char *number = getenv("REFUSE_NTH");
    next_malloc = (void *(*)(size_t))dlsym(RTLD_NEXT, "malloc");
    next_realloc = (void *(*)(void *, size_t))dlsym(RTLD_NEXT, "realloc");
    mark = getenv("REFUSE_MARK");
    nth = number == NULL ? 0 : strtoul(number, NULL, 10);
}

static int is_refused(void)
{
    if (nth == 0 || atomic_fetch_add(&count, 1) + 1 != nth)
        return 0;
    if (mark != NULL)
        close(open(mark, O_CREAT | O_WRONLY, 0644));
    return 1;
}

void *malloc(size_t size)
{
    if (next_malloc == NULL)
        next_malloc = (void *(*)(size_t))dlsym(RTLD_NEXT, "malloc");
    return is_refused() ? NULL : next_malloc(size);
}

void *realloc(void *old, size_t size)
{
    if (next_realloc == NULL)
        next_realloc = (void *(*)(void *, size_t))dlsym(RTLD_NEXT, "realloc");
    return is_refused() ? NULL : next_realloc(old, size);
}

/* Preloaded into a program: the REFUSE_AT-th growth of its memory (malloc or
   realloc) is refused, once, and the file REFUSE_MARK is made then. At its end
   the number of its growths goes into the file REFUSE_COUNT. */
#define _GNU_SOURCE
#include <dlfcn.h>
#include <fcntl.h>
#include <stdio.h>
#include <stdlib.h>
#include <unistd.h>

static long count;

static int refused(void)
{
    const char *at = getenv("REFUSE_AT"), *mark = getenv("REFUSE_MARK");
    count++;
    if (!at || count != atol(at))
        return 0;
    if (mark)
        close(open(mark, O_CREAT | O_WRONLY, 0600));
    return 1;
}

__attribute__((destructor)) static void tell(void)
{
    const char *name = getenv("REFUSE_COUNT");
    if (name) {
        long growths = count;
        int file = open(name, O_CREAT | O_TRUNC | O_WRONLY, 0600);
        dprintf(file, "%ld\n", growths);
        close(file);
    }
}

void *malloc(size_t size)
{
    static void *(*real)(size_t);
    if (!real)
        real = dlsym(RTLD_NEXT, "malloc");
    return refused() ? NULL : real(size);
}

void *realloc(void *block, size_t size)
{
    static void *(*real)(void *, size_t);
    if (!real)
        real = dlsym(RTLD_NEXT, "realloc");
    return refused() ? NULL : real(block, size);
}

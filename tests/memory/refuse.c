/* LD_PRELOAD puts this library before a program. It refuses the memory allocation whose number is in REFUSE, counted from 1, and all allocations from
   one of the size in REFUSE_BETWEEN up to the next of that size, both included. It grants all others. For each one that it refuses, it writes a byte to
   the descriptor in REFUSED. */
#include <stddef.h>
#include <stdlib.h>
#include <unistd.h>

extern void *__libc_malloc(size_t size);
extern void *__libc_realloc(void *block, size_t size);

static int is_numbered(void)
{
    static long grown;
    const char *number = getenv("REFUSE");

    return number && ++grown == atol(number);
}

static int is_between(size_t size)
{
    static int refusing;
    const char *mark = getenv("REFUSE_BETWEEN");

    if (!mark || !size || size != (size_t) atol(mark))
        return refusing;
    refusing = !refusing;
    return 1;
}

static int is_refused(size_t size)
{
    const char *said = getenv("REFUSED");
    int numbered = is_numbered(), between = is_between(size);

    return said && (numbered || between) && write(atoi(said), "!", 1) >= 0;
}

void *malloc(size_t size)
{
    return is_refused(size) ? NULL : __libc_malloc(size);
}

void *realloc(void *block, size_t size)
{
    return is_refused(size) ? NULL : __libc_realloc(block, size);
}

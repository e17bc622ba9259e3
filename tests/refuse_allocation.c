/* Preloaded, it refuses one allocation of a program, and counts them all.

     REFUSE=N      the Nth allocation, counted from 1, is refused; without it none
     COUNT=FILE    how many there were is written to this file at the program's end

   It is built for the GNU C library, whose own allocator stands behind these names. */
#include <errno.h>
#include <stddef.h>
#include <stdio.h>
#include <stdlib.h>

extern void *__libc_malloc(size_t);
extern void *__libc_calloc(size_t, size_t);
extern void *__libc_realloc(void *, size_t);
extern void *__libc_memalign(size_t, size_t);

static long asked, refused;

__attribute__((constructor)) static void begin(void)
{
    const char *number = getenv("REFUSE");
    refused = number ? atol(number) : 0;
    asked = 0;
}

static int is_refused(void)
{
    asked += 1;
    if (asked != refused)
        return 0;
    errno = ENOMEM;
    return 1;
}

void *malloc(size_t size)
{
    return is_refused() ? NULL : __libc_malloc(size);
}

void *calloc(size_t count, size_t size)
{
    return is_refused() ? NULL : __libc_calloc(count, size);
}

void *realloc(void *old, size_t size)
{
    return is_refused() ? NULL : __libc_realloc(old, size);
}

void *aligned_alloc(size_t alignment, size_t size)
{
    return is_refused() ? NULL : __libc_memalign(alignment, size);
}

int posix_memalign(void **place, size_t alignment, size_t size)
{
    if (is_refused())
        return ENOMEM;
    *place = __libc_memalign(alignment, size);
    return *place ? 0 : ENOMEM;
}

__attribute__((destructor)) static void end(void)
{
    const long count = asked;
    const char *name = getenv("COUNT");
    FILE *file = name ? fopen(name, "w") : NULL;
    if (!file)
        return;
    fprintf(file, "%ld\n", count);
    fclose(file);
}

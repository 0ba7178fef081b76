/* Loaded before a program's own libraries (LD_PRELOAD), refuses as many requests for memory as REFUSE_MOST
   says, or all, from the one with the number REFUSE_FROM on, counted from 0. tools/cases builds and uses it. */
#include <errno.h>
#include <stdlib.h>

extern void *__libc_malloc(size_t size);
extern void *__libc_realloc(void *block, size_t size);
extern void *__libc_memalign(size_t align, size_t size);

static int is_refused(void)
{
    static unsigned long asked, refused;
    const char *from = getenv("REFUSE_FROM"), *most = getenv("REFUSE_MOST");
    if (!from || asked++ < strtoul(from, NULL, 10) || (most && refused >= strtoul(most, NULL, 10)))
        return 0;
    refused++;
    errno = ENOMEM;
    return 1;
}

void *malloc(size_t size)
{
    return is_refused() ? NULL : __libc_malloc(size);
}

void *realloc(void *block, size_t size)
{
    return is_refused() ? NULL : __libc_realloc(block, size);
}

void *aligned_alloc(size_t align, size_t size)
{
    return is_refused() ? NULL : __libc_memalign(align, size);
}

int posix_memalign(void **block, size_t align, size_t size)
{
    if (is_refused())
        return ENOMEM;
    *block = __libc_memalign(align, size);
    return *block ? 0 : ENOMEM;
}

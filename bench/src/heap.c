/* Loaded before a program's own libraries (LD_PRELOAD), counts the blocks of memory in use and their bytes, as
   the allocator rounds them. A request for MARK bytes is a mark: of what is in use since the first one the second
   prints the bytes at most, the bytes and the blocks now, and the bytes of resident memory. bench/memory builds
   and uses it. */
#include <errno.h>
#include <malloc.h>
#include <stdio.h>
#include <stdlib.h>
#include <unistd.h>

#define MARK 77777

extern void *__libc_malloc(size_t size);
extern void *__libc_calloc(size_t count, size_t size);
extern void *__libc_realloc(void *block, size_t size);
extern void *__libc_memalign(size_t align, size_t size);
extern void __libc_free(void *block);

static struct state {
    long bytes, blocks, resident;
} now, start;
static long most;
static int marks;

static long resident(void)
{
    long pages = 0;
    FILE *file = fopen("/proc/self/statm", "r");
    if (!file || fscanf(file, "%*d %ld", &pages) != 1)
        exit(1);
    fclose(file);
    return pages * sysconf(_SC_PAGESIZE);
}

static void mark(void)
{
    struct state seen = now;
    long seen_most = most;
    seen.resident = resident();
    if (marks++ == 0) {
        start = seen;
        most = now.bytes;
    } else {
        dprintf(2, "%ld %ld %ld %ld\n", seen_most - start.bytes, seen.bytes - start.bytes,
                seen.blocks - start.blocks, seen.resident - start.resident);
    }
}

static void *added(void *block)
{
    if (block) {
        now.bytes += malloc_usable_size(block);
        now.blocks++;
        if (now.bytes > most)
            most = now.bytes;
    }
    return block;
}

/* The block of a mark is none of what is measured. */
static void *marked(void)
{
    mark();
    long before = most;
    void *block = added(__libc_malloc(MARK));
    most = before;
    return block;
}

static void remove_block(void *block)
{
    if (block) {
        now.bytes -= malloc_usable_size(block);
        now.blocks--;
    }
}

void *malloc(size_t size)
{
    return size == MARK ? marked() : added(__libc_malloc(size));
}

void *calloc(size_t count, size_t size)
{
    return added(__libc_calloc(count, size));
}

void *realloc(void *block, size_t size)
{
    struct state before = now;
    remove_block(block);
    void *moved = __libc_realloc(block, size);
    if (!moved && size) {
        now = before;
        return NULL;
    }
    return added(moved);
}

void *memalign(size_t align, size_t size)
{
    return added(__libc_memalign(align, size));
}

void *aligned_alloc(size_t align, size_t size)
{
    return added(__libc_memalign(align, size));
}

int posix_memalign(void **block, size_t align, size_t size)
{
    *block = added(__libc_memalign(align, size));
    return *block ? 0 : ENOMEM;
}

void free(void *block)
{
    remove_block(block);
    __libc_free(block);
}

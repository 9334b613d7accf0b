/* Counts the bytes that a program has of malloc, for run.py: those that it has now, and the most since the second number
   was last set. Both are kept in the file that HEAP names. A block that grows counts once, as long as it is. */
#include <fcntl.h>
#include <malloc.h>
#include <stdlib.h>
#include <sys/mman.h>

extern void *__libc_malloc(size_t);
extern void *__libc_calloc(size_t, size_t);
extern void *__libc_realloc(void *, size_t);
extern void *__libc_memalign(size_t, size_t);
extern void __libc_free(void *);

static struct counts { long now, most; } own, *counts = &own;

__attribute__((constructor)) static void begin(void)
{
    const char *name = getenv("HEAP");
    int file = name ? open(name, O_RDWR) : -1;
    void *place = file < 0 ? MAP_FAILED : mmap(0, sizeof own, PROT_READ | PROT_WRITE, MAP_SHARED, file, 0);
    if (place != MAP_FAILED)
        counts = place;
}

/* The bytes of a block, and the eight before it that malloc keeps. */
static long size(void *block)
{
    return block ? (long)malloc_usable_size(block) + 8 : 0;
}

static void *taken(void *block, long before)
{
    long now = __atomic_add_fetch(&counts->now, size(block) - before, __ATOMIC_RELAXED);
    if (now > __atomic_load_n(&counts->most, __ATOMIC_RELAXED))
        __atomic_store_n(&counts->most, now, __ATOMIC_RELAXED);
    return block;
}

void *malloc(size_t bytes)
{
    return taken(__libc_malloc(bytes), 0);
}

void *calloc(size_t items, size_t bytes)
{
    return taken(__libc_calloc(items, bytes), 0);
}

void *realloc(void *block, size_t bytes)
{
    long before = size(block);
    void *grown = __libc_realloc(block, bytes);
    return grown || !bytes ? taken(grown, before) : grown;
}

void *memalign(size_t align, size_t bytes)
{
    return taken(__libc_memalign(align, bytes), 0);
}

void *aligned_alloc(size_t align, size_t bytes)
{
    return memalign(align, bytes);
}

int posix_memalign(void **place, size_t align, size_t bytes)
{
    *place = memalign(align, bytes);
    return *place ? 0 : 12;
}

void free(void *block)
{
    __atomic_sub_fetch(&counts->now, size(block), __ATOMIC_RELAXED);
    __libc_free(block);
}

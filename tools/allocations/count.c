/* Counts the allocations of a program: stands before malloc and its kin by LD_PRELOAD, and keeps three numbers in the file that COUNT_FILE names, of eight bytes each: how many allocations there were,
   how many bytes the blocks have that weren't given back, and the most that these ever had. A block has the bytes that the C library gives it, which are some more than were asked for. So the numbers
   are there while the program runs, and however it ends, and allocations of all its threads are in them. */
#define _GNU_SOURCE
#include <dlfcn.h>
#include <fcntl.h>
#include <malloc.h>
#include <stdlib.h>
#include <sys/mman.h>
#include <unistd.h>

enum { ALLOCATIONS, LIVE, MOST, NUMBERS };

extern void *__libc_calloc(size_t, size_t);

static long before[NUMBERS]; /* what there was before the file is there */
static long *numbers = before;

static void *next(const char *name)
{
    return dlsym(RTLD_NEXT, name);
}

__attribute__((constructor)) static void begin(void)
{
    const char *name = getenv("COUNT_FILE");
    int file = name ? open(name, O_RDWR) : -1;
    if (file < 0)
        return;
    long *there = mmap(0, sizeof before, PROT_READ | PROT_WRITE, MAP_SHARED, file, 0);
    close(file);
    if (there == MAP_FAILED)
        return;
    for (int n = 0; n < NUMBERS; n++)
        there[n] = before[n];
    numbers = there;
}

/* A block is there that had so many bytes before: none where it is new. */
static void *one_more(void *block, size_t had)
{
    __atomic_fetch_add(numbers + ALLOCATIONS, 1, __ATOMIC_RELAXED);
    if (!block)
        return block;
    long more = (long)malloc_usable_size(block) - (long)had;
    long live = __atomic_add_fetch(numbers + LIVE, more, __ATOMIC_RELAXED);
    long most = __atomic_load_n(numbers + MOST, __ATOMIC_RELAXED);
    while (live > most && !__atomic_compare_exchange_n(numbers + MOST, &most, live, 1, __ATOMIC_RELAXED, __ATOMIC_RELAXED))
        ;
    return block;
}

void *malloc(size_t size)
{
    static void *(*real)(size_t);
    if (!real)
        real = next("malloc");
    return one_more(real(size), 0);
}

void *calloc(size_t count, size_t size)
{
    return one_more(__libc_calloc(count, size), 0);
}

void *realloc(void *old, size_t size)
{
    static void *(*real)(void *, size_t);
    if (!real)
        real = next("realloc");
    size_t had = malloc_usable_size(old);
    if (old && size == 0)
        __atomic_fetch_sub(numbers + LIVE, (long)had, __ATOMIC_RELAXED);
    return one_more(real(old, size), had);
}

int posix_memalign(void **at, size_t alignment, size_t size)
{
    static int (*real)(void **, size_t, size_t);
    if (!real)
        real = next("posix_memalign");
    int failed = real(at, alignment, size);
    one_more(failed ? 0 : *at, 0);
    return failed;
}

void *aligned_alloc(size_t alignment, size_t size)
{
    static void *(*real)(size_t, size_t);
    if (!real)
        real = next("aligned_alloc");
    return one_more(real(alignment, size), 0);
}

void free(void *block)
{
    static void (*real)(void *);
    if (!real)
        real = next("free");
    __atomic_fetch_sub(numbers + LIVE, (long)malloc_usable_size(block), __ATOMIC_RELAXED);
    real(block);
}

/* Refuses memory to a program: stands before malloc and its kin by LD_PRELOAD. Growths are numbered from 1, in all threads together.

     REFUSE_AT=5,9      refuses these growths
     REFUSE_FROM=7      refuses this one and all later ones
     REFUSE_FILE=NAME   keeps in the first 16 bytes of this file how many growths there were, and how many were refused

   So the numbers are there however the program ends. */
#define _GNU_SOURCE
#include <errno.h>
#include <fcntl.h>
#include <stdlib.h>
#include <sys/mman.h>
#include <unistd.h>

extern void *__libc_malloc(size_t);
extern void *__libc_calloc(size_t, size_t);
extern void *__libc_realloc(void *, size_t);
extern void *__libc_memalign(size_t, size_t);

enum { MOST_PLACES = 256 };

static unsigned long before[2]; /* what is counted before the file is there */
static unsigned long *counts = before;
static unsigned long at[MOST_PLACES], from;
static int places;

__attribute__((constructor)) static void begin(void)
{
    const char *text = getenv("REFUSE_AT"), *name = getenv("REFUSE_FILE");
    for (char *end; text && *text && places < MOST_PLACES; text = *end ? end + 1 : end)
        at[places++] = strtoul(text, &end, 10);
    text = getenv("REFUSE_FROM");
    from = text ? strtoul(text, 0, 10) : 0;
    int file = name ? open(name, O_RDWR) : -1;
    if (file < 0)
        return;
    unsigned long *there = mmap(0, sizeof before, PROT_READ | PROT_WRITE, MAP_SHARED, file, 0);
    close(file);
    if (there == MAP_FAILED)
        return;
    there[0] = before[0];
    counts = there;
}

/* Whether the next growth is refused. */
static int refused(void)
{
    unsigned long number = __atomic_add_fetch(&counts[0], 1, __ATOMIC_SEQ_CST);
    int no = from && number >= from;
    for (int place = 0; place < places; place++)
        no = no || at[place] == number;
    if (no)
        __atomic_add_fetch(&counts[1], 1, __ATOMIC_SEQ_CST);
    return no;
}

static void *no_memory(void)
{
    errno = ENOMEM;
    return 0;
}

void *malloc(size_t size)
{
    return refused() ? no_memory() : __libc_malloc(size);
}

void *calloc(size_t number, size_t size)
{
    return refused() ? no_memory() : __libc_calloc(number, size);
}

void *realloc(void *old, size_t size)
{
    return refused() ? no_memory() : __libc_realloc(old, size);
}

void *aligned_alloc(size_t alignment, size_t size)
{
    return refused() ? no_memory() : __libc_memalign(alignment, size);
}

int posix_memalign(void **there, size_t alignment, size_t size)
{
    void *made = refused() ? no_memory() : __libc_memalign(alignment, size);
    if (!made)
        return ENOMEM;
    *there = made;
    return 0;
}

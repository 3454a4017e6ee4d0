/* Stands between a program of one thread and the C library (LD_PRELOAD), and refuses allocations as a host without memory does: the
   answer is NULL, and errno is ENOMEM. Allocations are counted from 1, and those before main and its constructors are not counted.
   What is not refused goes to the C library. A realloc to 0 bytes frees, and is no allocation.

   REFUSE_AT=N         the N-th allocation is refused
   REFUSE_FROM=N       the N-th allocation is refused, and each later one
   REFUSE_COUNTS=FILE  while the program runs FILE has numbers of 8 bytes: how many allocations were asked for, how many of them were
                       refused, how many writes to the standard error there were, and for each of the first 128 of these how many
                       allocations had been asked for by then */
#define _GNU_SOURCE
#include <errno.h>
#include <fcntl.h>
#include <stddef.h>
#include <stdint.h>
#include <stdlib.h>
#include <sys/mman.h>
#include <unistd.h>

/* The C library's own functions, under the names that they keep where others take the usual ones. */
extern void *__libc_malloc(size_t);
extern void *__libc_calloc(size_t, size_t);
extern void *__libc_realloc(void *, size_t);
extern void *__libc_memalign(size_t, size_t);
extern ssize_t __write(int, const void *, size_t);

enum { STANDARD_ERROR = 2, MOST_WRITES = 128 };

struct counts {
    uint64_t met, refused, writes, by[MOST_WRITES];
};

static struct counts untold;
static struct counts *counts = &untold;
static uint64_t first, last;
static int counting;

static uint64_t number_of(const char *name)
{
    const char *text = getenv(name);
    return text ? strtoull(text, NULL, 10) : 0;
}

/* Keeps the counts in a file, where they stay also if the program is killed. */
static void tell_in(const char *path)
{
    int file = path ? open(path, O_RDWR | O_CREAT | O_CLOEXEC, 0600) : -1;
    if (file < 0)
        return;
    if (ftruncate(file, sizeof *counts) == 0) {
        void *place = mmap(NULL, sizeof *counts, PROT_READ | PROT_WRITE, MAP_SHARED, file, 0);
        if (place != MAP_FAILED)
            counts = place;
    }
    close(file);
}

__attribute__((constructor)) static void begin(void)
{
    uint64_t at = number_of("REFUSE_AT"), from = number_of("REFUSE_FROM");
    first = at ? at : from;
    last = at ? at : UINT64_MAX;
    tell_in(getenv("REFUSE_COUNTS"));
    counting = 1;
}

static int is_refused(void)
{
    if (!counting)
        return 0;
    uint64_t number = ++counts->met;
    if (first == 0 || number < first || number > last)
        return 0;
    ++counts->refused;
    errno = ENOMEM;
    return 1;
}

void *malloc(size_t size)
{
    return is_refused() ? NULL : __libc_malloc(size);
}

void *calloc(size_t count, size_t size)
{
    return is_refused() ? NULL : __libc_calloc(count, size);
}

void *realloc(void *block, size_t size)
{
    if (block && size == 0)
        return __libc_realloc(block, size);
    return is_refused() ? NULL : __libc_realloc(block, size);
}

void *memalign(size_t alignment, size_t size)
{
    return is_refused() ? NULL : __libc_memalign(alignment, size);
}

void *aligned_alloc(size_t alignment, size_t size)
{
    return memalign(alignment, size);
}

int posix_memalign(void **block, size_t alignment, size_t size)
{
    void *made = memalign(alignment, size);
    if (!made)
        return ENOMEM;
    *block = made;
    return 0;
}

ssize_t write(int file, const void *bytes, size_t length)
{
    if (file == STANDARD_ERROR && counts->writes < MOST_WRITES)
        counts->by[counts->writes] = counts->met;
    counts->writes += file == STANDARD_ERROR;
    return __write(file, bytes, length);
}

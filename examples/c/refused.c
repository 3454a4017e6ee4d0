/* Refuses each allocation of the library in turn. A call then returns 65536 and leaves its zone as it was, or does what it does; and
 * when all zones are freed, nothing is allocated. Prints how many allocations were refused.
 *
 * malloc, realloc and free of this file stand in the place of the C library's for the library alone: it is linked with
 * -Wl,--wrap=malloc,--wrap=realloc,--wrap=free. */
#include <macmem.h>

#include <stdbool.h>
#include <stdio.h>
#include <stdlib.h>
#include <string.h>

enum { ZONE = 65536, HANDLES = 200 };

static long met, refused_at, live;

void *__real_malloc(size_t size);
void *__real_realloc(void *block, size_t size);
void __real_free(void *block);

void *__wrap_malloc(size_t size)
{
    void *block = ++met == refused_at ? NULL : __real_malloc(size);
    live += block != NULL;
    return block;
}

void *__wrap_realloc(void *block, size_t size)
{
    void *moved = ++met == refused_at ? NULL : __real_realloc(block, size);
    live += block == NULL && moved != NULL;
    return moved;
}

void __wrap_free(void *block)
{
    live -= block != NULL;
    __real_free(block);
}

static void wrong(const char *what, int32_t code)
{
    printf("allocation %ld refused: %s (%d)\n", refused_at, what, (int)code);
    exit(1);
}

/* Makes handles, each with a block, and fails unless a call that the host refused left the free bytes as they were. */
static void fill(macmem_zone *zone)
{
    for (int i = 0; i < HANDLES; i++) {
        size_t handle = SIZE_MAX;
        uint32_t before = macmem_free_mem(zone);
        int32_t code = macmem_new_handle(zone, 16 + i, &handle);
        if (code == MACMEM_HOST_MEMORY) {
            if (macmem_free_mem(zone) != before || handle != SIZE_MAX)
                wrong("NewHandle changed something", code);
        } else if (code != 0) {
            wrong("NewHandle", code);
        }
    }
}

/* Whether a handle's block has just these bytes. */
static bool holds(macmem_zone *zone, size_t handle, const char *bytes)
{
    uint8_t out[32];
    size_t len = 0;
    return macmem_show(zone, handle, out, sizeof out, &len) == 0 && len == strlen(bytes) && memcmp(out, bytes, len) == 0;
}

/* Seeks bytes in a block and replaces them: both are done, or the block and the offset are as they were. */
static void munge(macmem_zone *zone)
{
    static const char before[] = "one two", after[] = "one three";
    size_t handle = SIZE_MAX;
    int64_t offset = 77;
    if (macmem_ptr_to_hand(zone, (const uint8_t *)before, strlen(before), &handle) != 0)
        return;
    int32_t code = macmem_munger(zone, handle, 0, (const uint8_t *)"two", 3, (const uint8_t *)"three", 5, &offset);
    bool stopped = code == MACMEM_HOST_MEMORY;
    if (stopped ? offset != 77 : code != 0 || offset != 9)
        wrong("Munger", code);
    if (!holds(zone, handle, stopped ? before : after))
        wrong("Munger left other bytes", code);
    offset = 77;
    code = macmem_munger_nil(zone, handle, 0, (const uint8_t *)"one", 3, &offset);
    if (code == MACMEM_HOST_MEMORY ? offset != 77 : code != 0 || offset != 0)
        wrong("Munger with NIL", code);
}

/* The transcript of a script is whole, or there is none. */
static void replay(void)
{
    static const char script[] = "NewHandle a 100\nWhere a\n";
    uint8_t out[256];
    size_t len = 77;
    macmem_fault fault = {0};
    int32_t code = macmem_script_transcript(1024, (const uint8_t *)script, sizeof script - 1, out, sizeof out, &len, &fault);
    if (code == MACMEM_HOST_MEMORY ? len != 77 : code != 0 || len >= sizeof out)
        wrong("the script", code);
}

int main(void)
{
    for (refused_at = 1;; refused_at++) {
        macmem_zone zone;
        met = 0;
        int32_t code = macmem_zone_new(ZONE, &zone);
        if (code == 0) {
            fill(&zone);
            munge(&zone);
            macmem_zone_free(&zone);
        } else if (code != MACMEM_HOST_MEMORY) {
            wrong("macmem_zone_new", code);
        }
        replay();
        if (live != 0)
            wrong("something stays allocated", (int32_t)live);
        if (met < refused_at)
            break;
    }
    printf("%ld allocations refused, each in turn: nothing is wrong, and nothing stays allocated\n", refused_at - 1);
    return 0;
}

/* A pointer that is kept across NewHandle points into another block: examples/kept_pointer.script from C.
 *
 * Build it as docs/c.md says; it prints where the bytes of two blocks stand. */
#include <macmem.h>

#include <stdio.h>
#include <stdlib.h>

/* Ends the program where a call was refused. */
static void done(int32_t code)
{
    if (code != 0) {
        fprintf(stderr, "a call returned %d\n", (int)code);
        exit(1);
    }
}

int main(void)
{
    macmem_zone zone;
    size_t gap, text, list;
    uint32_t kept, now, other;
    uint8_t bytes[2];
    size_t len;

    done(macmem_zone_new(1024, &zone));
    done(macmem_new_handle(&zone, 100, &gap));
    done(macmem_new_handle(&zone, 100, &text));
    done(macmem_put(&zone, text, 0, (const uint8_t *)"Hi", 2));
    done(macmem_dispose_handle(&zone, gap));
    done(macmem_where(&zone, text, &kept));
    done(macmem_new_handle(&zone, 500, &list));
    done(macmem_where(&zone, text, &now));
    done(macmem_where(&zone, list, &other));
    printf("text was at %u, is at %u; list is at %u\n", (unsigned)kept, (unsigned)now, (unsigned)other);
    done(macmem_show(&zone, text, bytes, sizeof bytes, &len));
    printf("text has %zu bytes, and begins with %.2s\n", len, (const char *)bytes);
    macmem_zone_free(&zone);
    return 0;
}

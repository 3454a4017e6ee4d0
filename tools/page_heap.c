/* The heap of the page's module, in the module's own memory: what the library allocates with, as over malloc elsewhere, and what the page
 * takes for the bytes that it passes.
 *
 * Blocks have certain sizes: 32, 48, 64, 96, 128, 192 and so on. A block is cut off the end of what was taken so far, and stays one of its
 * size for ever: once freed, it is kept for the next block of that size. Before its bytes stand 16 with the number of its size. */

typedef unsigned long long u64;
typedef struct {
    u64 done; /* 1, or 0 where there is no memory */
    u64 at;
} Tried;

enum { HEADER = 16, PAGE = 65536, SIZES = 128 };

extern unsigned char __heap_base;

static u64 top, end;        /* the memory from top to end is not taken as yet */
static u64 free_of[SIZES]; /* the last block of each size that was freed, in which the one before it stands; 0 for none */

/* The number of the least size that holds so many bytes: sizes 2 n and 2 n + 1 are 32 << n and 48 << n. */
static u64 size_for(u64 count) {
    u64 size = 0;
    while ((size & 1 ? 48ull : 32ull) << (size / 2) < count) size++;
    return size;
}

static u64 bytes_of(u64 size) {
    return (size & 1 ? 48ull : 32ull) << (size / 2);
}

/* Has memory up to a place: the host is asked for an eighth more than that, or else for just that. */
static int reach(u64 place) {
    if (place <= end) return 1;
    u64 lacking = (place - end + PAGE - 1) / PAGE, more = end / PAGE / 8;
    if (__builtin_wasm_memory_grow(0, lacking + more) == -1ull) {
        more = 0;
        if (__builtin_wasm_memory_grow(0, lacking) == -1ull) return 0;
    }
    end += (lacking + more) * PAGE;
    return 1;
}

/* A block of so many bytes, at a multiple of 16. No alignment that the library asks for is greater. */
Tried rattle_alloc(u64 count, u64 alignment) {
    Tried none = {0, HEADER};
    if (count >> 36 || alignment > 16) return none;
    if (!top) {
        top = ((u64)&__heap_base + 15) / 16 * 16;
        end = __builtin_wasm_memory_size(0) * PAGE;
    }
    u64 size = size_for(count), at = free_of[size];
    if (at) {
        free_of[size] = *(u64 *)at;
    } else {
        if (!reach(top + HEADER + bytes_of(size))) return none;
        at = top + HEADER;
        top = at + bytes_of(size);
        *(u64 *)(at - HEADER) = size;
    }
    return (Tried){1, at};
}

void rattle_dealloc(u64 at) {
    u64 size = *(u64 *)(at - HEADER);
    *(u64 *)at = free_of[size];
    free_of[size] = at;
}

/* The block with so many bytes, of which the first `kept` are as they were. It stays where it is unless its size is another. */
Tried rattle_realloc(u64 at, u64 kept, u64 count, u64 alignment) {
    if (!(count >> 36) && size_for(count) == *(u64 *)(at - HEADER)) return (Tried){1, at};
    Tried made = rattle_alloc(count, alignment);
    if (made.done) {
        __builtin_memcpy((void *)made.at, (void *)at, kept);
        rattle_dealloc(at);
    }
    return made;
}

/* For the page: a block, or 0 where there is no memory; and its end. */
__attribute__((export_name("host_alloc"))) u64 host_alloc(u64 count) {
    Tried made = rattle_alloc(count, 16);
    return made.done ? made.at : 0;
}

__attribute__((export_name("host_free"))) void host_free(u64 at) {
    rattle_dealloc(at);
}

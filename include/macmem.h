/* macmem for C: heap zones, resource forks and scripts of a classic Macintosh. docs/c.md says who owes what.
 *
 * Each function that returns an int32_t returns 0 where it did what it says, a result code of the Toolbox where a call of the Memory
 * Manager was refused (-108 is memFullErr), or one of the codes below, which no result code has: those have 16 bits.
 *
 * Bytes go out as with snprintf: `out` has room for `room` bytes and gets as many as there is room for, and `len` becomes the number of
 * all bytes. */
#ifndef MACMEM_H
#define MACMEM_H

#include <stdbool.h>
#include <stddef.h>
#include <stdint.h>

#ifdef __cplusplus
extern "C" {
#endif

enum {
    MACMEM_BAD_SIZE = -50,      /* no zone has the size that is asked for: paramErr */
    MACMEM_HOST_MEMORY = 65536, /* the host is out of memory; what the call was to change is as it was */
    MACMEM_FILE_FAULT = 65537   /* the bytes of a file or a script are at fault; a macmem_fault says how */
};

/* Heap zones. `at` is the zone's own: C neither reads nor changes it, and copies it nowhere. It stays the same until
 * macmem_zone_free, after which no zone is kept. */
typedef struct macmem_zone {
    void *at;
} macmem_zone;

/* A fresh zone of `size` bytes, a multiple of 16 from 512 to 134,217,728. */
int32_t macmem_zone_new(uint32_t size, macmem_zone *zone);
void macmem_zone_free(macmem_zone *zone);

/* A handle or a pointer is a number that its zone gave; a zone gives no number twice. A number that the zone did not give is refused with
 * -109 (nilHandleErr). macmem_handle_zone and macmem_ptr_zone give the place of the zone in which a handle or a pointer is, from its own
 * start: 0. */
int32_t macmem_new_handle(macmem_zone *zone, uint32_t size, size_t *handle);
int32_t macmem_new_empty_handle(macmem_zone *zone, size_t *handle);
int32_t macmem_dispose_handle(macmem_zone *zone, size_t handle);
int32_t macmem_get_handle_size(macmem_zone *zone, size_t handle, uint32_t *size);
int32_t macmem_handle_zone(macmem_zone *zone, size_t handle, uint32_t *place);
int32_t macmem_set_handle_size(macmem_zone *zone, size_t handle, uint32_t size);
int32_t macmem_reallocate_handle(macmem_zone *zone, size_t handle, uint32_t size);
int32_t macmem_empty_handle(macmem_zone *zone, size_t handle);
int32_t macmem_hand_to_hand(macmem_zone *zone, size_t handle, size_t *copy);
int32_t macmem_hand_and_hand(macmem_zone *zone, size_t from, size_t to);
int32_t macmem_ptr_to_hand(macmem_zone *zone, const uint8_t *bytes, size_t count, size_t *handle);
int32_t macmem_ptr_and_hand(macmem_zone *zone, size_t handle, const uint8_t *bytes, size_t count);
int32_t macmem_ptr_to_x_hand(macmem_zone *zone, size_t handle, const uint8_t *bytes, size_t count);
/* The handle whose block's content begins at a place, as macmem_where gives it. */
int32_t macmem_recover_handle(macmem_zone *zone, uint32_t place, size_t *handle);
/* `count` bytes of the block of a handle or a pointer, from `start` on, into another or the same, from `offset` on. */
int32_t macmem_block_move(macmem_zone *zone, size_t from, uint32_t start, size_t to, uint32_t offset, uint32_t count);
/* The first bytes like `old` in a handle's block, from `from` on, replaced; or `count` bytes at `from`; or only sought. `offset` becomes that
 * after the new bytes, or that of the bytes that are found; or -1. */
int32_t macmem_munger(macmem_zone *zone, size_t handle, uint32_t from, const uint8_t *old, size_t old_count, const uint8_t *bytes,
                      size_t bytes_count, int64_t *offset);
int32_t macmem_munger_count(macmem_zone *zone, size_t handle, uint32_t from, uint32_t count, const uint8_t *bytes,
                            size_t bytes_count, int64_t *offset);
int32_t macmem_munger_nil(macmem_zone *zone, size_t handle, uint32_t from, const uint8_t *old, size_t count, int64_t *offset);

/* The properties of a handle's block. A state is a sum of bits: 128 where the block is locked, 64 where it is purgeable, 32 where the
 * handle is a resource's. */
int32_t macmem_h_lock(macmem_zone *zone, size_t handle);
int32_t macmem_h_unlock(macmem_zone *zone, size_t handle);
int32_t macmem_h_purge(macmem_zone *zone, size_t handle);
int32_t macmem_h_no_purge(macmem_zone *zone, size_t handle);
int32_t macmem_h_get_state(macmem_zone *zone, size_t handle, uint8_t *state);
int32_t macmem_h_set_state(macmem_zone *zone, size_t handle, uint8_t state);
int32_t macmem_move_h_hi(macmem_zone *zone, size_t handle);
int32_t macmem_h_lock_hi(macmem_zone *zone, size_t handle);

int32_t macmem_new_ptr(macmem_zone *zone, uint32_t size, size_t *pointer);
int32_t macmem_dispose_ptr(macmem_zone *zone, size_t pointer);
int32_t macmem_get_ptr_size(macmem_zone *zone, size_t pointer, uint32_t *size);
int32_t macmem_ptr_zone(macmem_zone *zone, size_t pointer, uint32_t *place);
int32_t macmem_set_ptr_size(macmem_zone *zone, size_t pointer, uint32_t size);

/* The space in a zone. */
uint32_t macmem_free_mem(macmem_zone *zone);
uint32_t macmem_max_block(macmem_zone *zone);
void macmem_purge_space(macmem_zone *zone, uint32_t *total, uint32_t *contiguous);
uint32_t macmem_compact_mem(macmem_zone *zone, uint32_t size);
int32_t macmem_purge_mem(macmem_zone *zone, uint32_t size);
int32_t macmem_max_mem(macmem_zone *zone, uint32_t *size);
int32_t macmem_reserve_mem(macmem_zone *zone, uint32_t size);
int32_t macmem_more_masters(macmem_zone *zone);
int32_t macmem_mem_error(macmem_zone *zone);

/* The bytes of blocks, and where in the zone the content of a handle's or a pointer's block begins. */
int32_t macmem_put(macmem_zone *zone, size_t handle, uint32_t from, const uint8_t *bytes, size_t count);
int32_t macmem_show(macmem_zone *zone, size_t handle, uint8_t *out, size_t room, size_t *len);
int32_t macmem_put_ptr(macmem_zone *zone, size_t pointer, uint32_t from, const uint8_t *bytes, size_t count);
int32_t macmem_show_ptr(macmem_zone *zone, size_t pointer, uint8_t *out, size_t room, size_t *len);
/* The bytes of the zone as they lie; what is returned is their number. */
size_t macmem_image(macmem_zone *zone, uint8_t *out, size_t room);
int32_t macmem_where(macmem_zone *zone, size_t name, uint32_t *place);

/* What is wrong with the bytes of a file: the line of a source or a script, or 0; the result code, or 0 where the fault has none; and
 * whether the second of two files is at fault. */
typedef struct macmem_fault {
    size_t line;
    int16_t code;
    bool second;
} macmem_fault;

/* A resource of a fork: the four bytes of its type, the highest first, its ID and attributes, whether it has a name, and the number of
 * bytes of its stored data. */
typedef struct macmem_row {
    size_t size;
    uint32_t kind;
    int16_t id;
    uint8_t attrs;
    bool has_name;
} macmem_row;

/* Resource forks, each in the bytes of a file: alone, or in AppleSingle, AppleDouble, MacBinary or BinHex. A fork that is made is written in
 * the wrapper of the file that it is made of (`wrapped`), or alone. */
int32_t macmem_fork_rows(const uint8_t *file, size_t count, macmem_row *rows, size_t room, size_t *len, macmem_fault *fault);
int32_t macmem_fork_get(const uint8_t *file, size_t count, uint32_t kind, int16_t id, uint8_t *out, size_t room, size_t *len,
                        macmem_fault *fault);
int32_t macmem_fork_set(const uint8_t *file, size_t count, uint32_t kind, int16_t id, const uint8_t *bytes, size_t bytes_count,
                        bool wrapped, uint8_t *out, size_t room, size_t *len, macmem_fault *fault);
int32_t macmem_fork_remove(const uint8_t *file, size_t count, uint32_t kind, int16_t id, bool wrapped, uint8_t *out, size_t room,
                           size_t *len, macmem_fault *fault);
int32_t macmem_fork_rewrite(const uint8_t *file, size_t count, bool wrapped, uint8_t *out, size_t room, size_t *len,
                            macmem_fault *fault);
int32_t macmem_fork_diff(const uint8_t *first, size_t count, const uint8_t *second, size_t second_count, uint8_t *out, size_t room,
                         size_t *len, bool *differs, macmem_fault *fault);
int32_t macmem_fork_derez(const uint8_t *file, size_t count, bool typed, uint8_t *out, size_t room, size_t *len, macmem_fault *fault);
int32_t macmem_fork_rez(const uint8_t *source, size_t count, uint8_t *out, size_t room, size_t *len, macmem_fault *fault);

/* What a file and its fork are, in lines: what is known of the file; in words whether it has a fork and whether that is in canonical form, of
 * any bytes; and the resources, each with type, ID, attributes, length and name, in UTF-8. */
int32_t macmem_fork_info(const uint8_t *file, size_t count, uint8_t *out, size_t room, size_t *len, macmem_fault *fault);
int32_t macmem_fork_check(const uint8_t *file, size_t count, uint8_t *out, size_t room, size_t *len);
int32_t macmem_fork_listing(const uint8_t *file, size_t count, uint8_t *out, size_t room, size_t *len, macmem_fault *fault);

/* A resource as source of Rez; and the fork in which a resource is what a source states of its type and ID: bytes, name and attributes. */
int32_t macmem_fork_show(const uint8_t *file, size_t count, uint32_t kind, int16_t id, bool typed, uint8_t *out, size_t room,
                         size_t *len, macmem_fault *fault);
int32_t macmem_fork_state(const uint8_t *file, size_t count, uint32_t kind, int16_t id, const uint8_t *source, size_t source_count,
                          bool wrapped, uint8_t *out, size_t room, size_t *len, macmem_fault *fault);

/* Scripts, each in a fresh zone of `size` bytes. Of a faulty line `fault` has the number, and as code 1 where its first word is not known, 2
 * where an argument is missing or wrong or the line may not stand there, 3 where it may not stand in a grow-zone script, 4 where it is
 * too long. */
int32_t macmem_script_transcript(uint32_t size, const uint8_t *script, size_t count, uint8_t *out, size_t room, size_t *len,
                                 macmem_fault *fault);
int32_t macmem_script_list(uint32_t size, size_t line, const uint8_t *script, size_t count, uint8_t *out, size_t room, size_t *len,
                           macmem_fault *fault);
int32_t macmem_script_picture(uint32_t size, size_t line, const uint8_t *script, size_t count, uint8_t *out, size_t room, size_t *len,
                              macmem_fault *fault);
int32_t macmem_script_steps(uint32_t size, size_t from, size_t to, const uint8_t *script, size_t count, uint8_t *out, size_t room,
                            size_t *len, macmem_fault *fault);

/* The calls on the lines from one to another in words, each with what it returned, moved and purged. */
int32_t macmem_script_words(uint32_t size, size_t from, size_t to, const uint8_t *script, size_t count, uint8_t *out, size_t room,
                            size_t *len, macmem_fault *fault);

/* What is wrong with each faulty line of a script, as LINE:COLUMN: WORDS, and with the first of a source of Rez, as LINE: WORDS; nothing,
 * where nothing is wrong. */
int32_t macmem_script_faults(const uint8_t *script, size_t count, uint8_t *out, size_t room, size_t *len);
int32_t macmem_source_faults(const uint8_t *source, size_t count, uint8_t *out, size_t room, size_t *len);

#ifdef __cplusplus
}
#endif

#endif

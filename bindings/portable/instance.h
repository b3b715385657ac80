/* An instance of the module: its variables, a memory of its own, and a heap in that. */
#ifndef HAYRO_JBIG2_INSTANCE_H
#define HAYRO_JBIG2_INSTANCE_H

#include "hayro_jbig2.h"
#include "hayro_jbig2_module.h"

#include <setjmp.h>

/* The most bytes that the memory of an instance may have. Its first 17 pages of 65536 are the module's own. */
#ifndef HAYRO_JBIG2_MOST_MEMORY
#define HAYRO_JBIG2_MOST_MEMORY 0xFFFF0000u
#endif

enum { SIZES_OF_BLOCKS = 108 };

struct instance {
    Z_hayro_jbig2_instance_t module;
    const hayro_jbig2_memory *memory; /* the caller's, or NULL for malloc and free */
    uint64_t room;                    /* how many bytes the heap has room for from the start */
    uint64_t end;                     /* where the heap ends */
    uint32_t free_blocks[SIZES_OF_BLOCKS];
    jmp_buf *landing;
    bool is_broken;
};

/* Blocks of the caller's memory, or of malloc. */
void *jbig2_portable_take(const hayro_jbig2_memory *memory, size_t size);
void jbig2_portable_give_back(const hayro_jbig2_memory *memory, void *block, size_t size);

/* Does some work that calls the module. Where the module traps, the work ends there with HAYRO_JBIG2_OUT_OF_MEMORY,
 * and so does each later run of this instance. */
uint32_t jbig2_portable_run(struct instance *instance, uint32_t (*work)(void *words), void *words);

/* Begins an instance of zeros, with room for some bytes, as a copy of another one where `like` is not NULL. It has to
 * be run, and freed also where it fails. */
void jbig2_portable_begin(struct instance *instance, const hayro_jbig2_memory *memory, const struct instance *like,
                          uint64_t room);
void jbig2_portable_free(struct instance *instance);

/* A block of the heap as its place in the memory, or 0 where there is no memory for it. */
uint64_t jbig2_portable_take_place(struct instance *instance, uint64_t size);
void jbig2_portable_give_place(struct instance *instance, uint64_t place, uint64_t size);

/* Copies bytes in and out, and reads and writes a number of `size` bytes. A place outside of the memory traps. */
void jbig2_portable_copy_in(struct instance *instance, uint64_t place, const uint8_t *bytes, size_t length);
void jbig2_portable_copy_out(struct instance *instance, uint64_t place, uint8_t *bytes, size_t length);
uint64_t jbig2_portable_number(struct instance *instance, uint64_t place, unsigned size);
void jbig2_portable_set_number(struct instance *instance, uint64_t place, unsigned size, uint64_t number);

#endif

/* The caller's memory, and bytes that are gathered in it. */
#ifndef MEMORY_H
#define MEMORY_H

#include "abi.h"
#include "hayro_jbig2.h"

#include <stdbool.h>

/* Over malloc, for callers that bring no allocator. */
extern struct allocator default_allocator;

/* A block at a multiple of 8, or null. */
void *take(struct allocator *allocator, size_t size);
void give_back(struct allocator *allocator, void *block);

/* The same as the decoder asks for it. */
hayro_jbig2_memory memory_of(struct allocator *allocator);

/* Bytes that come in pieces. After a refused piece there is a hole, and what comes later makes no sense. */
struct bytes {
    uint8_t *at;
    size_t length, room;
    bool has_hole;
};

/* Never null, since the decoder takes no null pointer, not even beside a length of 0. */
const uint8_t *start_of(const struct bytes *bytes);
bool append(struct allocator *allocator, struct bytes *bytes, const uint8_t *piece, size_t size);
bool copy_bytes(struct allocator *allocator, struct bytes *copy, const struct bytes *bytes);
void clear_bytes(struct allocator *allocator, struct bytes *bytes);

#endif

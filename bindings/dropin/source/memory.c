#include "memory.h"

#include <stdlib.h>
#include <string.h>

/* What the decoder asks for at most. Ghostscript's blocks are at multiples of 8, and mostly not of 16. */
enum { ALIGNMENT = 8, FIRST_ROOM = 4096 };

static void *default_take(struct allocator *allocator, size_t size) {
    (void)allocator;
    return malloc(size);
}

static void default_give_back(struct allocator *allocator, void *block) {
    (void)allocator;
    free(block);
}

static void *default_resize(struct allocator *allocator, void *block, size_t size) {
    (void)allocator;
    return realloc(block, size);
}

struct allocator default_allocator = {default_take, default_give_back, default_resize};

void *take(struct allocator *allocator, size_t size) {
    void *block = allocator->take(allocator, size);
    if ((uintptr_t)block % ALIGNMENT == 0)
        return block;
    allocator->give_back(allocator, block);
    return NULL;
}

void give_back(struct allocator *allocator, void *block) {
    if (block != NULL)
        allocator->give_back(allocator, block);
}

static void *take_for_decoder(void *user, size_t size) { return take(user, size); }

static void give_back_from_decoder(void *user, void *block, size_t size) {
    (void)size;
    give_back(user, block);
}

hayro_jbig2_memory memory_of(struct allocator *allocator) {
    return (hayro_jbig2_memory){take_for_decoder, give_back_from_decoder, allocator};
}

const uint8_t *start_of(const struct bytes *bytes) { return bytes->length > 0 ? bytes->at : (const uint8_t *)""; }

/* The caller's resize is not called: taking, copying and giving back asks less of an allocator. */
static bool make_room(struct allocator *allocator, struct bytes *bytes, size_t more) {
    if (more <= bytes->room - bytes->length)
        return true;
    if (more > SIZE_MAX / 2 - bytes->length)
        return false;
    size_t room = bytes->room < FIRST_ROOM ? FIRST_ROOM : 2 * bytes->room;
    if (room < bytes->length + more)
        room = bytes->length + more;
    uint8_t *at = take(allocator, room);
    if (at == NULL)
        return false;
    if (bytes->length > 0)
        memcpy(at, bytes->at, bytes->length);
    give_back(allocator, bytes->at);
    bytes->at = at;
    bytes->room = room;
    return true;
}

bool append(struct allocator *allocator, struct bytes *bytes, const uint8_t *piece, size_t size) {
    if (size == 0)
        return true;
    if (!make_room(allocator, bytes, size)) {
        bytes->has_hole = true;
        return false;
    }
    memcpy(bytes->at + bytes->length, piece, size);
    bytes->length += size;
    return true;
}

bool copy_bytes(struct allocator *allocator, struct bytes *copy, const struct bytes *bytes) {
    *copy = (struct bytes){.has_hole = bytes->has_hole};
    return append(allocator, copy, bytes->at, bytes->length);
}

void clear_bytes(struct allocator *allocator, struct bytes *bytes) {
    give_back(allocator, bytes->at);
    *bytes = (struct bytes){0};
}

/* What handles hold. A program has their addresses alone. */
#ifndef HAYRO_JBIG2_HELD_H
#define HAYRO_JBIG2_HELD_H

#include "instance.h"

enum kind { HOLDS_GLOBALS = 1, HOLDS_PAGE, HOLDS_FILE, HOLDS_CONTEXT, HOLDS_WRITTEN };

/* What each handle begins with. */
struct handle {
    const hayro_jbig2_memory *memory;
    enum kind kind;
};

/* What is held in an instance: the module's handle of it, the module's context that draws it, and room for numbers. */
struct held {
    struct handle head;
    struct instance instance;
    uint64_t value, context, numbers;
    size_t page_count; /* of a file */
    size_t length;     /* of what was written */
};

struct context {
    struct handle head;
    uint64_t limit, left;
    hayro_jbig2_passed_over passed_over;
    uint8_t *rows;
    size_t length, room;
};

/* A handle of zeros, or NULL. */
void *jbig2_portable_new_handle(const hayro_jbig2_memory *memory, enum kind kind, size_t size);

/* What a handle holds, or NULL where it is of another kind. */
struct held *jbig2_portable_held(void *handle, enum kind kind);

/* Has the module write the numbers of a page's info, or of what was left out. It has to be run. */
struct asking {
    struct held *held;
    uint64_t index;
    bool left_out;
};
uint32_t jbig2_portable_ask(void *asking);

/* The number of `size` bytes that the module has written at this place of its numbers. */
uint64_t jbig2_portable_written(struct held *held, unsigned place, unsigned size);

#endif

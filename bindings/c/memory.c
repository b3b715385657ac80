/* The caller's memory, as the proved calls use it: by its functions, or by malloc and free. The proof assumes that
 * these two functions give out and take back blocks as source/src/memory.rt.txt says; nothing here is proved. */
#include "../../tools/build/linked/processor.h"
#include "hayro_jbig2.h"

#include <stdlib.h>

/* What the proved code reads: whether there is a block, and where. */
struct tried {
    bool ok;
    void *block;
};

/* A pointer that is not null and that nobody follows, for a request that is refused. */
static char refused;

struct tried jbig2_c_take(const hayro_jbig2_memory *memory, size_t size, size_t align);
void jbig2_c_give_back(const hayro_jbig2_memory *memory, void *block, size_t size);

/* A caller's memory promises an alignment of 8, which is all that the decoder asks for. A block of no bytes has a place
 * of its own too. */
struct tried jbig2_c_take(const hayro_jbig2_memory *memory, size_t size, size_t align) {
    size_t room = size == 0 ? 1 : size;
    void *block = NULL;
    if (align <= 8)
        block = memory == NULL ? malloc(room) : memory->take(memory->user, room);
    return block == NULL ? (struct tried){false, &refused} : (struct tried){true, block};
}

void jbig2_c_give_back(const hayro_jbig2_memory *memory, void *block, size_t size) {
    if (memory == NULL)
        free(block);
    else
        memory->give_back(memory->user, block, size == 0 ? 1 : size);
}

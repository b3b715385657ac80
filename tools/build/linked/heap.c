/* The heap that the proofs assume, over malloc: blocks of at least one byte, on addresses of which 16 is a divisor. */
#include <stdalign.h>
#include <stdbool.h>
#include <stddef.h>
#include <stdlib.h>

_Static_assert(alignof(max_align_t) >= 16, "the alignment that is asked for divides 16");

/* Whether there is memory, and where; where there is none, the address of a byte that nobody owns. */
struct tried {
    bool ok;
    void *block;
};

static char nothing;

static struct tried tried(void *block) { return (struct tried){block != NULL, block != NULL ? block : &nothing}; }

struct tried rattle_alloc(size_t size, size_t alignment);
struct tried rattle_realloc(void *block, size_t kept, size_t size, size_t alignment);
void rattle_dealloc(void *block);

struct tried rattle_alloc(size_t size, size_t alignment) {
    return tried(malloc(size > 0 ? size : alignment));
}

struct tried rattle_realloc(void *block, size_t kept, size_t size, size_t alignment) {
    (void)kept;
    return tried(realloc(block, size > 0 ? size : alignment));
}

void rattle_dealloc(void *block) { free(block); }

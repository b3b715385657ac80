/* Memory for random_calls.c: it checks what comes back, refuses requests, and calls the library while it is asked. Each
 * thread has random numbers of its own. */
#include <stdatomic.h>
#include <stdbool.h>
#include <stdint.h>
#include <stdio.h>
#include <stdlib.h>
#include <string.h>

static _Thread_local uint64_t random_state;

/* A number below `limit` (xorshift64*). */
static uint64_t below(uint64_t limit) {
    random_state ^= random_state >> 12;
    random_state ^= random_state << 25;
    random_state ^= random_state >> 27;
    return (random_state * 0x2545F4914F6CDD1D >> 11) % limit;
}

static bool one_in(uint64_t count) { return below(count) == 0; }

static uint64_t first_seed;

/* Ends the run, so that a sanitizer's report or a debugger shows where. */
static void check(bool holds, const char *file, int line, const char *condition) {
    if (!holds) {
        fprintf(stderr, "seed %llu, %s:%d: not so: %s\n", (unsigned long long)first_seed, file, line, condition);
        abort();
    }
}

#define CHECK(condition) check((condition), __FILE__, __LINE__, #condition)

struct counted {
    atomic_long blocks, bytes;
};

/* What lies before a block, so that this is at 8 past a multiple of 16, and what lies after it. */
struct before {
    size_t size;
    struct counted *owner;
    uint64_t guard;
};
static const uint64_t guard = 0x6A62696732206F6B;

/* How many more requests of this thread are granted before one is refused. */
static _Thread_local unsigned granted = UINT32_MAX;
/* What is done while the library waits for memory. */
static void (*at_request)(void);

static void *take(void *user, size_t size) {
    struct counted *counted = user;
    CHECK(size > 0);
    if (at_request != NULL && one_in(40))
        at_request();
    if (granted-- == 0)
        return NULL;
    uint8_t *start = malloc(sizeof(struct before) + size + sizeof guard);
    if (start == NULL)
        return NULL;
    memcpy(start, &(struct before){size, counted, guard}, sizeof(struct before));
    memset(start + sizeof(struct before), 0xAB, size);
    memcpy(start + sizeof(struct before) + size, &guard, sizeof guard);
    counted->blocks++;
    counted->bytes += (long)size;
    return start + sizeof(struct before);
}

static void give_back(void *user, void *block, size_t size) {
    struct counted *counted = user;
    uint8_t *start = (uint8_t *)block - sizeof(struct before);
    struct before before;
    if (at_request != NULL && one_in(40))
        at_request();
    memcpy(&before, start, sizeof before);
    CHECK(before.guard == guard && before.size == size && before.owner == counted);
    CHECK(memcmp((uint8_t *)block + size, &guard, sizeof guard) == 0);
    counted->blocks--;
    counted->bytes -= (long)size;
    memset(start, 0xDD, sizeof before + size);
    free(start);
}

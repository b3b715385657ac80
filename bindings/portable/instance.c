/* The module's memory, the heap in it, and what happens where the module can't go on. */
#include "instance.h"

#include <stdlib.h>

enum { PAGE = 65536 };

/* With its spare bytes a memory has less than 4 GiB, which processors of 32 bits can count. */
typedef char most_memory_is_below_4_gib[HAYRO_JBIG2_MOST_MEMORY <= 0xFFFF0000u ? 1 : -1];

/* The instance that runs in this thread. */
#if defined(HAYRO_JBIG2_NO_THREADS)
static struct instance *running;
#elif defined(__cplusplus)
static thread_local struct instance *running;
#elif defined(_MSC_VER)
static __declspec(thread) struct instance *running;
#elif defined(__GNUC__)
static __thread struct instance *running;
#else
static _Thread_local struct instance *running;
#endif

void *jbig2_portable_take(const hayro_jbig2_memory *memory, size_t size) {
    return memory == NULL ? malloc(size) : memory->take(memory->user, size);
}

void jbig2_portable_give_back(const hayro_jbig2_memory *memory, void *block, size_t size) {
    if (memory == NULL)
        free(block);
    else if (block != NULL)
        memory->give_back(memory->user, block, size);
}

uint32_t jbig2_portable_run(struct instance *instance, uint32_t (*work)(void *words), void *words) {
    struct instance *const outer = running;
    jmp_buf landing;
    uint32_t answer;
    if (instance->is_broken)
        return HAYRO_JBIG2_OUT_OF_MEMORY;
    instance->landing = &landing;
    running = instance;
    if (setjmp(landing) == 0) {
        answer = work(words);
    } else {
        instance->is_broken = true;
        answer = HAYRO_JBIG2_OUT_OF_MEMORY;
    }
    running = outer;
    return answer;
}

void wasm_rt_trap(wasm_rt_trap_t reason) { longjmp(*running->landing, (int)reason); }

/* The memory that the module begins with. The module takes for granted that it is there. */
void wasm_rt_allocate_memory(wasm_rt_memory_t *memory, uint32_t pages, uint32_t most) {
    const uint64_t own = (uint64_t)pages * PAGE, more = running->room;
    (void)most;
    if (more > HAYRO_JBIG2_MOST_MEMORY || own + more > HAYRO_JBIG2_MOST_MEMORY)
        wasm_rt_trap(WASM_RT_TRAP_EXHAUSTION);
    memory->data = (uint8_t *)jbig2_portable_take(running->memory, (size_t)(own + more) + WASM_RT_SPARE_BYTES);
    if (memory->data == NULL)
        wasm_rt_trap(WASM_RT_TRAP_EXHAUSTION);
    memory->size = (size_t)(own + more);
    /* The module's variables are zero at first. The stack, which lies before them, is like C's. */
    memset(memory->data + running->module.w2c_g0, 0, (size_t)(own - running->module.w2c_g0));
}

void wasm_rt_free_memory(wasm_rt_memory_t *memory) { (void)memory; }

void jbig2_portable_begin(struct instance *instance, const hayro_jbig2_memory *memory, const struct instance *like,
                          uint64_t room) {
    wasm_rt_memory_t *own = &instance->module.w2c_memory;
    if (like != NULL && like->is_broken)
        wasm_rt_trap(WASM_RT_TRAP_UNREACHABLE);
    instance->memory = memory;
    instance->room = like == NULL ? room : like->end - like->module.w2c___heap_base + room;
    Z_hayro_jbig2_instantiate(&instance->module, (struct Z_heap_instance_t *)instance);
    instance->end = (instance->module.w2c___heap_base + 15) / 16 * 16;
    if (like != NULL) {
        /* Below these places is the stack, which is empty between two calls. */
        const size_t start = (size_t)instance->module.w2c_g0;
        instance->end = like->end;
        memcpy(instance->free_blocks, like->free_blocks, sizeof like->free_blocks);
        memcpy(own->data + start, like->module.w2c_memory.data + start, (size_t)like->end - start);
    }
}

void jbig2_portable_free(struct instance *instance) {
    const wasm_rt_memory_t *memory = &instance->module.w2c_memory;
    jbig2_portable_give_back(instance->memory, memory->data, memory->size + WASM_RT_SPARE_BYTES);
}

/* Makes the memory larger by a half at least, so that it is seldom moved. */
static bool has_grown(struct instance *instance, uint64_t needed) {
    wasm_rt_memory_t *memory = &instance->module.w2c_memory;
    const uint64_t usual = (uint64_t)memory->size + memory->size / 2;
    uint64_t size = needed > usual ? needed : usual;
    uint8_t *data;
    if (size > HAYRO_JBIG2_MOST_MEMORY)
        size = HAYRO_JBIG2_MOST_MEMORY;
    if (size < needed)
        return false;
    if (instance->memory == NULL) {
        data = (uint8_t *)realloc(memory->data, (size_t)size + WASM_RT_SPARE_BYTES);
    } else {
        data = (uint8_t *)jbig2_portable_take(instance->memory, (size_t)size + WASM_RT_SPARE_BYTES);
        if (data != NULL) {
            memcpy(data, memory->data, memory->size);
            jbig2_portable_give_back(instance->memory, memory->data, memory->size + WASM_RT_SPARE_BYTES);
        }
    }
    if (data == NULL)
        return false;
    memory->data = data;
    memory->size = (size_t)size;
    return true;
}

/* Blocks have four sizes in each doubling, so that at most a quarter of a block is lost. Sets `room` to the size of a
 * block for these bytes, and returns its number. */
static unsigned size_of_block(uint64_t size, uint64_t *room) {
    unsigned bits = 6;
    uint64_t steps;
    if (size <= 64) {
        steps = size == 0 ? 1 : (size + 15) / 16;
        *room = steps * 16;
        return (unsigned)steps - 1;
    }
    while ((size - 1) >> (bits + 1) != 0)
        bits++;
    steps = (size + ((uint64_t)1 << (bits - 2)) - 1) >> (bits - 2);
    *room = steps << (bits - 2);
    return 4 * (bits - 6) + (unsigned)steps - 1;
}

/* Blocks that are given back wait by their size, and the first bytes of each are the place of the next. Others are taken
 * from the end. */
uint64_t jbig2_portable_take_place(struct instance *instance, uint64_t size) {
    uint64_t room, place;
    unsigned number;
    if (size > HAYRO_JBIG2_MOST_MEMORY)
        return 0;
    number = size_of_block(size, &room);
    place = instance->free_blocks[number];
    if (place != 0) {
        instance->free_blocks[number] = (uint32_t)jbig2_portable_number(instance, place, 4);
        return place;
    }
    place = instance->end;
    if (place + room > instance->module.w2c_memory.size && !has_grown(instance, place + room))
        return 0;
    instance->end = place + room;
    return place;
}

void jbig2_portable_give_place(struct instance *instance, uint64_t place, uint64_t size) {
    uint64_t room;
    unsigned number = size_of_block(size, &room);
    if (place + room == instance->end) {
        instance->end = place;
        return;
    }
    jbig2_portable_set_number(instance, place, 4, instance->free_blocks[number]);
    instance->free_blocks[number] = (uint32_t)place;
}

static uint8_t *at(struct instance *instance, uint64_t place, uint64_t length) {
    const uint64_t size = instance->module.w2c_memory.size;
    if (place > size || length > size - place)
        wasm_rt_trap(WASM_RT_TRAP_OOB);
    return instance->module.w2c_memory.data + place;
}

/* A caller's pointer to no bytes may be null, which memcpy doesn't take. */
void jbig2_portable_copy_in(struct instance *instance, uint64_t place, const uint8_t *bytes, size_t length) {
    uint8_t *to = at(instance, place, length);
    if (length > 0)
        memcpy(to, bytes, length);
}

void jbig2_portable_copy_out(struct instance *instance, uint64_t place, uint8_t *bytes, size_t length) {
    const uint8_t *from = at(instance, place, length);
    if (length > 0)
        memcpy(bytes, from, length);
}

uint64_t jbig2_portable_number(struct instance *instance, uint64_t place, unsigned size) {
    const uint8_t *bytes = at(instance, place, size);
    uint64_t number = 0;
    while (size-- > 0)
        number = number << 8 | bytes[size];
    return number;
}

void jbig2_portable_set_number(struct instance *instance, uint64_t place, unsigned size, uint64_t number) {
    uint8_t *bytes = at(instance, place, size);
    unsigned i;
    for (i = 0; i < size; i++)
        bytes[i] = (uint8_t)(number >> 8 * i);
}

/* What the module imports: two functions, which its proof assumes to give out blocks and to take them back. */
void Z_heapZ_jbig2_c_take(struct Z_heap_instance_t *heap, u64 answer, u64 memory, u64 size, u64 align) {
    struct instance *instance = (struct instance *)heap;
    const uint64_t place = align <= 16 ? jbig2_portable_take_place(instance, size) : 0;
    (void)memory;
    jbig2_portable_set_number(instance, answer, 1, place != 0);
    jbig2_portable_set_number(instance, answer + 8, 8, place != 0 ? place : answer);
}

void Z_heapZ_jbig2_c_give_back(struct Z_heap_instance_t *heap, u64 memory, u64 block, u64 size) {
    (void)memory;
    jbig2_portable_give_place((struct instance *)heap, block, size);
}

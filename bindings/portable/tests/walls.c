/* What happens where the module can't go on, and where memory has a ceiling. It looks inside of a handle, as no caller
 * may.
 * usage: walls FILE, t88-h1.jb2 of crates/jbig2_decode/data */
#include "../instance.h"

#include <stdio.h>
#include <stdlib.h>
#include <string.h>

static unsigned checks, failures;

static void check(bool holds, int line, const char *condition) {
    checks++;
    if (!holds) {
        failures++;
        printf("walls.c:%d: not so: %s\n", line, condition);
    }
}

#define CHECK(condition) check((condition), __LINE__, #condition)

static struct {
    uint8_t at[4096];
    size_t length;
} book;

/* The instance of a handle lies in its block, and has the address of itself, which the module calls its host. */
static struct instance *instance_of(void *handle) {
    size_t place;
    for (place = 0; place < 256; place += sizeof(void *)) {
        struct instance *instance = (struct instance *)((uint8_t *)handle + place);
        if (instance->module.Z_heap_instance == (struct Z_heap_instance_t *)instance)
            return instance;
    }
    abort();
}

static hayro_jbig2_file *new_file(void) {
    hayro_jbig2_file *file = NULL;
    CHECK(hayro_jbig2_file_new(NULL, false, book.at, book.length, &file) == HAYRO_JBIG2_OK);
    return file;
}

static uint32_t loads_outside(void *words) {
    struct instance *instance = (struct instance *)words;
    return Z_hayro_jbig2Z_hayro_jbig2_page_get_info(&instance->module, instance->module.w2c_memory.size, 1048576);
}

static uint32_t stores_at_the_end(void *words) {
    struct instance *instance = (struct instance *)words;
    Z_heapZ_jbig2_c_take((struct Z_heap_instance_t *)instance, instance->module.w2c_memory.size - 15, 0, 1, 1);
    return HAYRO_JBIG2_OK;
}

static uint32_t copies_outside(void *words) {
    struct instance *instance = (struct instance *)words;
    uint8_t bytes[2];
    jbig2_portable_copy_out(instance, instance->module.w2c_memory.size - 1, bytes, 2);
    return HAYRO_JBIG2_OK;
}

static uint32_t enters_twice(void *words) {
    struct instance *instance = (struct instance *)words;
    instance->module.w2c_g1 = 1;
    return Z_hayro_jbig2Z_hayro_jbig2_context_new(&instance->module, 0, 1048576);
}

static uint32_t has_no_stack(void *words) {
    struct instance *instance = (struct instance *)words;
    instance->module.w2c_g0 = 8;
    return Z_hayro_jbig2Z_hayro_jbig2_context_new(&instance->module, 0, 1048576);
}

/* After a trap the handle gives an error in each call, others go on, and it can be freed. */
static void traps(uint32_t (*work)(void *words)) {
    hayro_jbig2_file *file = new_file(), *other = new_file();
    hayro_jbig2_context *context = NULL;
    hayro_jbig2_page_info info = {9, 9, 9};
    struct instance *instance = instance_of(file);
    CHECK(hayro_jbig2_context_new(NULL, &context) == HAYRO_JBIG2_OK);
    CHECK(hayro_jbig2_file_draw(file, 0, context) == HAYRO_JBIG2_OK);
    CHECK(!instance->is_broken);
    CHECK(jbig2_portable_run(instance, work, instance) == HAYRO_JBIG2_OUT_OF_MEMORY);
    CHECK(instance->is_broken);
    CHECK(hayro_jbig2_file_draw(file, 0, context) == HAYRO_JBIG2_OUT_OF_MEMORY);
    CHECK(hayro_jbig2_file_get_info(file, 0, &info) == HAYRO_JBIG2_OUT_OF_MEMORY && info.width == 9);
    CHECK(hayro_jbig2_file_draw(other, 0, context) == HAYRO_JBIG2_OK);
    hayro_jbig2_file_free(file);
    hayro_jbig2_file_free(other);
    hayro_jbig2_context_free(context);
}

/* Pages of globals that trapped. */
static void traps_in_globals(void) {
    hayro_jbig2_globals *globals = NULL, *other = NULL;
    hayro_jbig2_page *page = NULL;
    CHECK(hayro_jbig2_globals_new(NULL, false, book.at, 0, &globals) == HAYRO_JBIG2_OK);
    CHECK(jbig2_portable_run(instance_of(globals), loads_outside, instance_of(globals)) == HAYRO_JBIG2_OUT_OF_MEMORY);
    CHECK(hayro_jbig2_globals_share(NULL, globals, &other) == HAYRO_JBIG2_OUT_OF_MEMORY && other == NULL);
    CHECK(hayro_jbig2_page_new(NULL, false, globals, book.at, 9, &page) == HAYRO_JBIG2_OUT_OF_MEMORY && page == NULL);
    hayro_jbig2_globals_free(globals);
}

/* A caller's memory that has a ceiling. */
struct bounded {
    size_t held, most, highest;
};

static void *take(void *user, size_t size) {
    struct bounded *bounded = (struct bounded *)user;
    if (size > bounded->most - bounded->held)
        return NULL;
    bounded->held += size;
    if (bounded->held > bounded->highest)
        bounded->highest = bounded->held;
    return malloc(size);
}

static void give_back(void *user, void *block, size_t size) {
    ((struct bounded *)user)->held -= size;
    free(block);
}

/* Draws a page of 2^22 pixels within a ceiling. */
static uint32_t draws_within(struct bounded *bounded) {
    static const uint8_t stream[] = {0, 0, 0, 0, 48, 0, 1, 0, 0, 0, 19, 0, 0, 8, 0,
                                     0, 0, 8, 0, 0,  0, 0, 0, 0, 0, 0,  0, 0, 0, 0};
    const hayro_jbig2_memory memory = {take, give_back, bounded};
    hayro_jbig2_page *page = NULL;
    hayro_jbig2_context *context = NULL;
    uint32_t answer = hayro_jbig2_page_new(&memory, false, NULL, stream, sizeof stream, &page);
    if (answer == HAYRO_JBIG2_OK)
        answer = hayro_jbig2_context_new(&memory, &context);
    if (answer == HAYRO_JBIG2_OK)
        answer = hayro_jbig2_page_draw(page, context);
    hayro_jbig2_page_free(page);
    hayro_jbig2_context_free(context);
    CHECK(bounded->held == 0);
    return answer;
}

static void keeps_ceilings(void) {
    struct bounded bounded = {0, SIZE_MAX, 0};
    size_t needed, most;
    CHECK(draws_within(&bounded) == HAYRO_JBIG2_OK);
    needed = bounded.highest;
    CHECK(needed > 1 << 20 && needed < 8 << 20);
    for (most = 0; most < needed; most += needed / 64) {
        bounded.most = most;
        bounded.highest = 0;
        CHECK(draws_within(&bounded) == HAYRO_JBIG2_OUT_OF_MEMORY && bounded.highest <= most);
    }
    bounded.most = needed;
    CHECK(draws_within(&bounded) == HAYRO_JBIG2_OK);
}

/* How much a segment of unknown length takes is found without memory for all that comes after it. */
static void finds_ends_of_data(void) {
    static const uint8_t begin[] = {0, 0, 0, 1, 38, 0, 1, 255, 255, 255, 255, 0, 0, 0, 8,
                                    0, 0, 0, 1, 0,  0, 0, 0,   0,   0,   0,   0, 0, 1};
    static uint8_t list[1 << 23];
    struct bounded bounded = {0, 1 << 22, 0};
    const hayro_jbig2_memory memory = {take, give_back, &bounded};
    static const size_t ends[] = {sizeof begin, 4090, 4096, 5000, 300000};
    size_t i, taken = 0;
    memset(list, 1, sizeof list);
    memcpy(list, begin, sizeof begin);
    CHECK(hayro_jbig2_segment_get_length(NULL, false, list, sizeof list, &taken) ==
          HAYRO_JBIG2_SEGMENT_MISSING_END_MARKER);
    for (i = sizeof ends / sizeof *ends; i-- > 0;) {
        memset(list + ends[i], 0, 6);
        CHECK(hayro_jbig2_segment_get_length(&memory, false, list, sizeof list, &taken) == HAYRO_JBIG2_OK);
        CHECK(taken == ends[i] + 6 && bounded.held == 0);
    }
}

int main(int count, char **words) {
    FILE *file = count == 2 ? fopen(words[1], "rb") : NULL;
    if (file == NULL)
        return 2;
    book.length = fread(book.at, 1, sizeof book.at, file);
    fclose(file);
    traps(loads_outside);
    traps(stores_at_the_end);
    traps(copies_outside);
    traps(enters_twice);
    traps(has_no_stack);
    traps_in_globals();
    keeps_ceilings();
    finds_ends_of_data();
    printf("%u checks of traps and ceilings, %u failed\n", checks, failures);
    return failures > 0;
}

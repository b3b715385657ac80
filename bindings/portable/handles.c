/* Globals, pages and files. ../c/handles.c has the calls that take a null pointer or fill an array.
 *
 * Globals, a page and a file have an instance of the module each, and a context has the rows that were drawn. So no
 * handle shares anything with another one, and threads need no lock. */
#include "calls.h"
#include "held.h"

#include <string.h>

/* How bytes are read. In salvage, `strict` is not looked at; a page is read without a limit of work. */
struct reading {
    bool salvaged, strict;
    uint64_t work;
};

enum { NUMBERS = 40 };

void *jbig2_portable_new_handle(const hayro_jbig2_memory *memory, enum kind kind, size_t size) {
    struct handle *head = (struct handle *)jbig2_portable_take(memory, size);
    if (head != NULL) {
        memset(head, 0, size);
        head->memory = memory;
        head->kind = kind;
    }
    return head;
}

struct held *jbig2_portable_held(void *handle, enum kind kind) {
    return ((struct handle *)handle)->kind == kind ? (struct held *)handle : NULL;
}

static void free_held(void *handle) {
    struct held *held = (struct held *)handle;
    if (held == NULL)
        return;
    jbig2_portable_free(&held->instance);
    jbig2_portable_give_back(held->head.memory, held, sizeof *held);
}

/* Reading bytes into a new instance, with what is held of other globals where there are some. */
struct making {
    struct held *held;
    const struct held *globals;
    const struct reading *reading;
    const uint8_t *bytes;
    size_t length;
};

static uint32_t make_page(Z_hayro_jbig2_instance_t *module, const struct making *making, uint64_t bytes,
                          uint64_t slot) {
    const struct reading *reading = making->reading;
    if (making->globals == NULL && reading->salvaged)
        return Z_hayro_jbig2Z_jbig2_c_salvaged_alone(module, 0, bytes, making->length, slot);
    if (making->globals == NULL)
        return Z_hayro_jbig2Z_jbig2_c_page_alone(module, 0, reading->strict, bytes, making->length, slot);
    if (reading->salvaged)
        return Z_hayro_jbig2Z_jbig2_c_salvaged_with(module, 0, making->globals->value, bytes, making->length, slot);
    return Z_hayro_jbig2Z_jbig2_c_page_with(module, 0, reading->strict, making->globals->value, bytes, making->length,
                                            slot);
}

static uint32_t make_held(const struct making *making, uint64_t bytes, uint64_t slot) {
    const struct reading *reading = making->reading;
    Z_hayro_jbig2_instance_t *module = &making->held->instance.module;
    switch (making->held->head.kind) {
    case HOLDS_GLOBALS:
        if (reading->salvaged)
            return Z_hayro_jbig2Z_hayro_jbig2_globals_new_salvaged(module, 0, reading->work, bytes, making->length,
                                                                   slot);
        return Z_hayro_jbig2Z_hayro_jbig2_globals_new_within(module, 0, reading->strict, reading->work, bytes,
                                                             making->length, slot);
    case HOLDS_FILE:
        if (reading->salvaged)
            return Z_hayro_jbig2Z_hayro_jbig2_file_new_salvaged(module, 0, reading->work, bytes, making->length, slot);
        return Z_hayro_jbig2Z_hayro_jbig2_file_new_within(module, 0, reading->strict, reading->work, bytes,
                                                          making->length, slot);
    default:
        return make_page(module, making, bytes, slot);
    }
}

static uint32_t reads(void *words) {
    const struct making *making = (const struct making *)words;
    struct held *held = making->held;
    struct instance *instance = &held->instance;
    const struct instance *like = making->globals == NULL ? NULL : &making->globals->instance;
    uint64_t bytes;
    uint32_t answer;
    jbig2_portable_begin(instance, held->head.memory, like, 2 * (uint64_t)making->length);
    held->numbers = jbig2_portable_take_place(instance, NUMBERS);
    bytes = jbig2_portable_take_place(instance, making->length);
    if (held->numbers == 0 || bytes == 0)
        return HAYRO_JBIG2_OUT_OF_MEMORY;
    jbig2_portable_copy_in(instance, bytes, making->bytes, making->length);
    jbig2_portable_set_number(instance, held->numbers, 8, 0);
    answer = make_held(making, bytes, held->numbers);
    if (answer != HAYRO_JBIG2_OK)
        return answer;
    held->value = jbig2_portable_number(instance, held->numbers, 8);
    if (held->head.kind == HOLDS_FILE)
        held->page_count = (size_t)Z_hayro_jbig2Z_hayro_jbig2_file_page_count(&instance->module, held->value);
    else
        jbig2_portable_give_place(instance, bytes, making->length);
    return HAYRO_JBIG2_OK;
}

/* Makes a handle of what bytes hold, or returns NULL with the answer. */
static struct held *new_held(const hayro_jbig2_memory *memory, enum kind kind, hayro_jbig2_globals *globals,
                             struct reading reading, const uint8_t *bytes, size_t length, uint32_t *answer) {
    struct making making;
    making.globals = globals == NULL ? NULL : jbig2_portable_held(globals, HOLDS_GLOBALS);
    *answer = HAYRO_JBIG2_OTHER_HANDLE;
    if (globals != NULL && making.globals == NULL)
        return NULL;
    making.held = (struct held *)jbig2_portable_new_handle(memory, kind, sizeof *making.held);
    *answer = HAYRO_JBIG2_OUT_OF_MEMORY;
    if (making.held == NULL)
        return NULL;
    making.reading = &reading;
    making.bytes = bytes;
    making.length = length;
    *answer = jbig2_portable_run(&making.held->instance, reads, &making);
    if (*answer == HAYRO_JBIG2_OK)
        return making.held;
    free_held(making.held);
    return NULL;
}

static uint32_t new_globals(const hayro_jbig2_memory *memory, struct reading reading, const uint8_t *bytes,
                            size_t length, hayro_jbig2_globals **globals) {
    uint32_t answer;
    struct held *held = new_held(memory, HOLDS_GLOBALS, NULL, reading, bytes, length, &answer);
    if (held != NULL)
        *globals = (hayro_jbig2_globals *)held;
    return answer;
}

static uint32_t new_page(const hayro_jbig2_memory *memory, struct reading reading, hayro_jbig2_globals *globals,
                         const uint8_t *stream, size_t length, hayro_jbig2_page **page) {
    uint32_t answer;
    struct held *held = new_held(memory, HOLDS_PAGE, globals, reading, stream, length, &answer);
    if (held != NULL)
        *page = (hayro_jbig2_page *)held;
    return answer;
}

static uint32_t new_file(const hayro_jbig2_memory *memory, struct reading reading, const uint8_t *bytes, size_t length,
                         hayro_jbig2_file **file) {
    uint32_t answer;
    struct held *held = new_held(memory, HOLDS_FILE, NULL, reading, bytes, length, &answer);
    if (held != NULL)
        *file = (hayro_jbig2_file *)held;
    return answer;
}

static struct reading plain(bool strict, uint64_t work) {
    struct reading reading = {false, strict, work};
    return reading;
}

static struct reading salvaged(uint64_t work) {
    struct reading reading = {true, false, work};
    return reading;
}

uint32_t hayro_jbig2_globals_new(const hayro_jbig2_memory *memory, bool strict, const uint8_t *bytes, size_t length,
                                 hayro_jbig2_globals **globals) {
    return new_globals(memory, plain(strict, HAYRO_JBIG2_NO_WORK_LIMIT), bytes, length, globals);
}

uint32_t hayro_jbig2_globals_new_within(const hayro_jbig2_memory *memory, bool strict, uint64_t work,
                                        const uint8_t *bytes, size_t length, hayro_jbig2_globals **globals) {
    return new_globals(memory, plain(strict, work), bytes, length, globals);
}

uint32_t hayro_jbig2_globals_new_salvaged(const hayro_jbig2_memory *memory, uint64_t work, const uint8_t *bytes,
                                          size_t length, hayro_jbig2_globals **globals) {
    return new_globals(memory, salvaged(work), bytes, length, globals);
}

uint32_t jbig2_c_page_alone(const hayro_jbig2_memory *memory, bool strict, const uint8_t *stream, size_t stream_length,
                            hayro_jbig2_page **page) {
    return new_page(memory, plain(strict, 0), NULL, stream, stream_length, page);
}

uint32_t jbig2_c_page_with(const hayro_jbig2_memory *memory, bool strict, hayro_jbig2_globals *globals,
                           const uint8_t *stream, size_t stream_length, hayro_jbig2_page **page) {
    return new_page(memory, plain(strict, 0), globals, stream, stream_length, page);
}

uint32_t jbig2_c_salvaged_alone(const hayro_jbig2_memory *memory, const uint8_t *stream, size_t stream_length,
                                hayro_jbig2_page **page) {
    return new_page(memory, salvaged(0), NULL, stream, stream_length, page);
}

uint32_t jbig2_c_salvaged_with(const hayro_jbig2_memory *memory, hayro_jbig2_globals *globals, const uint8_t *stream,
                               size_t stream_length, hayro_jbig2_page **page) {
    return new_page(memory, salvaged(0), globals, stream, stream_length, page);
}

uint32_t hayro_jbig2_file_new(const hayro_jbig2_memory *memory, bool strict, const uint8_t *bytes, size_t length,
                              hayro_jbig2_file **file) {
    return new_file(memory, plain(strict, HAYRO_JBIG2_NO_WORK_LIMIT), bytes, length, file);
}

uint32_t hayro_jbig2_file_new_within(const hayro_jbig2_memory *memory, bool strict, uint64_t work, const uint8_t *bytes,
                                     size_t length, hayro_jbig2_file **file) {
    return new_file(memory, plain(strict, work), bytes, length, file);
}

uint32_t hayro_jbig2_file_new_salvaged(const hayro_jbig2_memory *memory, uint64_t work, const uint8_t *bytes,
                                       size_t length, hayro_jbig2_file **file) {
    return new_file(memory, salvaged(work), bytes, length, file);
}

/* Making another handle of globals, with a copy of the instance. */
struct sharing {
    struct held *held;
    const struct held *globals;
};

static uint32_t shares(void *words) {
    const struct sharing *sharing = (const struct sharing *)words;
    struct held *held = sharing->held;
    jbig2_portable_begin(&held->instance, held->head.memory, &sharing->globals->instance, 0);
    held->value = sharing->globals->value;
    held->numbers = sharing->globals->numbers;
    return HAYRO_JBIG2_OK;
}

uint32_t hayro_jbig2_globals_share(const hayro_jbig2_memory *memory, hayro_jbig2_globals *globals,
                                   hayro_jbig2_globals **other) {
    struct sharing sharing;
    uint32_t answer;
    sharing.globals = jbig2_portable_held(globals, HOLDS_GLOBALS);
    if (sharing.globals == NULL)
        return HAYRO_JBIG2_OTHER_HANDLE;
    sharing.held = (struct held *)jbig2_portable_new_handle(memory, HOLDS_GLOBALS, sizeof *sharing.held);
    if (sharing.held == NULL)
        return HAYRO_JBIG2_OUT_OF_MEMORY;
    answer = jbig2_portable_run(&sharing.held->instance, shares, &sharing);
    if (answer == HAYRO_JBIG2_OK)
        *other = (hayro_jbig2_globals *)sharing.held;
    else
        free_held(sharing.held);
    return answer;
}

uint32_t jbig2_portable_ask(void *words) {
    const struct asking *asking = (const struct asking *)words;
    const struct held *held = asking->held;
    Z_hayro_jbig2_instance_t *module = &asking->held->instance.module;
    switch (held->head.kind) {
    case HOLDS_GLOBALS:
        return Z_hayro_jbig2Z_hayro_jbig2_globals_get_left_out(module, held->value, held->numbers);
    case HOLDS_FILE:
        if (asking->left_out)
            return Z_hayro_jbig2Z_hayro_jbig2_file_get_left_out(module, held->value, held->numbers);
        return Z_hayro_jbig2Z_hayro_jbig2_file_get_info(module, held->value, asking->index, held->numbers);
    default:
        if (asking->left_out)
            return Z_hayro_jbig2Z_hayro_jbig2_page_get_left_out(module, held->value, held->numbers);
        return Z_hayro_jbig2Z_hayro_jbig2_page_get_info(module, held->value, held->numbers);
    }
}

uint64_t jbig2_portable_written(struct held *held, unsigned place, unsigned size) {
    return jbig2_portable_number(&held->instance, held->numbers + place, size);
}

static uint32_t ask(struct held *held, uint64_t index, bool left_out) {
    struct asking asking = {held, index, left_out};
    if (held == NULL)
        return HAYRO_JBIG2_OTHER_HANDLE;
    return jbig2_portable_run(&held->instance, jbig2_portable_ask, &asking);
}

static uint32_t get_info(struct held *held, uint64_t index, hayro_jbig2_page_info *info) {
    const uint32_t answer = ask(held, index, false);
    if (answer == HAYRO_JBIG2_OK) {
        info->number = (uint32_t)jbig2_portable_written(held, 0, 4);
        info->width = (uint32_t)jbig2_portable_written(held, 4, 4);
        info->height = (uint32_t)jbig2_portable_written(held, 8, 4);
    }
    return answer;
}

static uint32_t get_left_out(struct held *held, hayro_jbig2_left_out *left_out) {
    const uint32_t answer = ask(held, 0, true);
    if (answer == HAYRO_JBIG2_OK) {
        left_out->segments = (size_t)jbig2_portable_written(held, 0, 8);
        left_out->segment = (uint32_t)jbig2_portable_written(held, 8, 4);
        left_out->error = (uint32_t)jbig2_portable_written(held, 12, 4);
        left_out->pages = (size_t)jbig2_portable_written(held, 16, 8);
        left_out->page_error = (uint32_t)jbig2_portable_written(held, 24, 4);
        left_out->list_segment = (uint32_t)jbig2_portable_written(held, 28, 4);
        left_out->list_error = (uint32_t)jbig2_portable_written(held, 32, 4);
    }
    return answer;
}

uint32_t hayro_jbig2_page_get_info(hayro_jbig2_page *page, hayro_jbig2_page_info *info) {
    return get_info(jbig2_portable_held(page, HOLDS_PAGE), 0, info);
}

size_t hayro_jbig2_file_page_count(hayro_jbig2_file *file) {
    const struct held *held = jbig2_portable_held(file, HOLDS_FILE);
    return held == NULL ? 0 : held->page_count;
}

uint32_t hayro_jbig2_file_get_info(hayro_jbig2_file *file, size_t index, hayro_jbig2_page_info *info) {
    return get_info(jbig2_portable_held(file, HOLDS_FILE), index, info);
}

uint32_t hayro_jbig2_globals_get_left_out(hayro_jbig2_globals *globals, hayro_jbig2_left_out *left_out) {
    return get_left_out(jbig2_portable_held(globals, HOLDS_GLOBALS), left_out);
}

uint32_t hayro_jbig2_page_get_left_out(hayro_jbig2_page *page, hayro_jbig2_left_out *left_out) {
    return get_left_out(jbig2_portable_held(page, HOLDS_PAGE), left_out);
}

uint32_t hayro_jbig2_file_get_left_out(hayro_jbig2_file *file, hayro_jbig2_left_out *left_out) {
    return get_left_out(jbig2_portable_held(file, HOLDS_FILE), left_out);
}

void jbig2_c_release(void *handle) {
    struct handle *head = (struct handle *)handle;
    if (head->kind == HOLDS_CONTEXT) {
        struct context *context = (struct context *)handle;
        jbig2_portable_give_back(head->memory, context->rows, context->room);
        jbig2_portable_give_back(head->memory, context, sizeof *context);
    } else {
        free_held(handle);
    }
}

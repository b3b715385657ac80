/* Pages that are written. A handle has an instance of the module, which holds the bytes. */
#include "calls.h"
#include "held.h"

/* The settings as the module reads them. */
enum { SETTINGS_BYTES = 16, TEMPLATE = 0, X_RESOLUTION = 4, Y_RESOLUTION = 8, TYPICAL = 12, WHOLE_FILE = 13, MMR = 14 };

struct writing {
    struct held *held;
    const uint8_t *rows;
    size_t length;
    uint32_t width, height;
    const hayro_jbig2_write_settings *settings;
};

static void copy_settings(struct instance *instance, uint64_t place, const hayro_jbig2_write_settings *settings) {
    jbig2_portable_set_number(instance, place + TEMPLATE, 4, settings->template_number);
    jbig2_portable_set_number(instance, place + X_RESOLUTION, 4, settings->x_resolution);
    jbig2_portable_set_number(instance, place + Y_RESOLUTION, 4, settings->y_resolution);
    jbig2_portable_set_number(instance, place + TYPICAL, 1, settings->typical);
    jbig2_portable_set_number(instance, place + WHOLE_FILE, 1, settings->whole_file);
    jbig2_portable_set_number(instance, place + MMR, 1, settings->mmr);
}

static uint32_t writes(void *words) {
    const struct writing *writing = (const struct writing *)words;
    struct held *held = writing->held;
    struct instance *instance = &held->instance;
    uint64_t rows, settings, slot;
    uint32_t answer;
    jbig2_portable_begin(instance, held->head.memory, NULL, 4 * (uint64_t)writing->length);
    slot = jbig2_portable_take_place(instance, 8);
    settings = jbig2_portable_take_place(instance, SETTINGS_BYTES);
    rows = jbig2_portable_take_place(instance, writing->length);
    if (slot == 0 || settings == 0 || rows == 0)
        return HAYRO_JBIG2_OUT_OF_MEMORY;
    jbig2_portable_copy_in(instance, rows, writing->rows, writing->length);
    copy_settings(instance, settings, writing->settings);
    jbig2_portable_set_number(instance, slot, 8, 0);
    answer = Z_hayro_jbig2Z_hayro_jbig2_written_new(&instance->module, 0, rows, writing->length, writing->width,
                                                    writing->height, settings, slot);
    if (answer != HAYRO_JBIG2_OK)
        return answer;
    held->value = jbig2_portable_number(instance, slot, 8);
    held->length = (size_t)Z_hayro_jbig2Z_hayro_jbig2_written_length(&instance->module, held->value);
    jbig2_portable_give_place(instance, rows, writing->length);
    return HAYRO_JBIG2_OK;
}

uint32_t hayro_jbig2_written_new(const hayro_jbig2_memory *memory, const uint8_t *rows, size_t rows_length,
                                 uint32_t width, uint32_t height, const hayro_jbig2_write_settings *settings,
                                 hayro_jbig2_written **written) {
    struct writing writing;
    uint32_t answer;
    writing.held = (struct held *)jbig2_portable_new_handle(memory, HOLDS_WRITTEN, sizeof *writing.held);
    if (writing.held == NULL)
        return HAYRO_JBIG2_OUT_OF_MEMORY;
    writing.rows = rows;
    writing.length = rows_length;
    writing.width = width;
    writing.height = height;
    writing.settings = settings;
    answer = jbig2_portable_run(&writing.held->instance, writes, &writing);
    if (answer == HAYRO_JBIG2_OK)
        *written = (hayro_jbig2_written *)writing.held;
    else
        jbig2_c_release(writing.held);
    return answer;
}

size_t hayro_jbig2_written_length(hayro_jbig2_written *written) {
    const struct held *held = jbig2_portable_held(written, HOLDS_WRITTEN);
    return held == NULL ? 0 : held->length;
}

struct copying {
    struct held *held;
    uint8_t *bytes;
};

static uint32_t copies(void *words) {
    const struct copying *copying = (const struct copying *)words;
    struct instance *instance = &copying->held->instance;
    const size_t length = copying->held->length;
    const uint64_t place = jbig2_portable_take_place(instance, length);
    uint32_t answer;
    if (place == 0)
        return HAYRO_JBIG2_OUT_OF_MEMORY;
    answer = Z_hayro_jbig2Z_hayro_jbig2_written_bytes(&instance->module, copying->held->value, place, length);
    if (answer == HAYRO_JBIG2_OK)
        jbig2_portable_copy_out(instance, place, copying->bytes, length);
    jbig2_portable_give_place(instance, place, length);
    return answer;
}

uint32_t hayro_jbig2_written_bytes(hayro_jbig2_written *written, uint8_t *bytes, size_t length) {
    struct copying copying;
    copying.held = jbig2_portable_held(written, HOLDS_WRITTEN);
    copying.bytes = bytes;
    if (copying.held == NULL)
        return HAYRO_JBIG2_OTHER_HANDLE;
    if (length != copying.held->length)
        return HAYRO_JBIG2_OTHER_SIZE;
    return jbig2_portable_run(&copying.held->instance, copies, &copying);
}

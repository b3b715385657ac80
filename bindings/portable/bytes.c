/* The calls on bytes, by those on handles: what they mean is the same (../c/source/specs/Meant.antt.txt). */
#include "hayro_jbig2.h"

#include <string.h>

/* A page of a file, or an embedded one, in memory of malloc. */
struct opened {
    hayro_jbig2_globals *globals;
    hayro_jbig2_file *file;
    hayro_jbig2_page *page;
    hayro_jbig2_page_info info;
};

static void close_all(struct opened *opened) {
    hayro_jbig2_globals_free(opened->globals);
    hayro_jbig2_page_free(opened->page);
    hayro_jbig2_file_free(opened->file);
}

static uint32_t open_page(struct opened *opened, bool strict, const uint8_t *file, size_t length, size_t index) {
    uint32_t answer = hayro_jbig2_file_new(NULL, strict, file, length, &opened->file);
    return answer == HAYRO_JBIG2_OK ? hayro_jbig2_file_get_info(opened->file, index, &opened->info) : answer;
}

static uint32_t open_embedded(struct opened *opened, bool strict, const uint8_t *globals, size_t globals_length,
                              const uint8_t *stream, size_t stream_length) {
    uint32_t answer = HAYRO_JBIG2_OK;
    if (globals_length > 0)
        answer = hayro_jbig2_globals_new(NULL, strict, globals, globals_length, &opened->globals);
    if (answer == HAYRO_JBIG2_OK)
        answer = hayro_jbig2_page_new(NULL, strict, opened->globals, stream, stream_length, &opened->page);
    return answer == HAYRO_JBIG2_OK ? hayro_jbig2_page_get_info(opened->page, &opened->info) : answer;
}

static uint32_t sized(uint32_t answer, struct opened *opened, uint32_t *width, uint32_t *height) {
    if (answer == HAYRO_JBIG2_OK) {
        *width = opened->info.width;
        *height = opened->info.height;
    }
    close_all(opened);
    return answer;
}

/* Writes a byte for each pixel of a row. */
static void write_pixels(const uint8_t *row, uint8_t *image, uint32_t width) {
    uint32_t x;
    for (x = 0; x < width; x++)
        image[x] = row[x / 8] >> (7 - x % 8) & 1 ? 0 : 255;
}

enum { MOST_ROW_BYTES = (65535 + 7) / 8 };

static uint32_t write_image(const struct opened *opened, hayro_jbig2_context *context, uint8_t *image) {
    const size_t row_bytes = ((size_t)opened->info.width + 7) / 8;
    uint8_t row[MOST_ROW_BYTES];
    uint32_t answer = HAYRO_JBIG2_OK, y;
    for (y = 0; y < opened->info.height && answer == HAYRO_JBIG2_OK; y++) {
        answer = hayro_jbig2_context_rows(context, y * row_bytes, row, row_bytes);
        write_pixels(row, image + (size_t)y * opened->info.width, opened->info.width);
    }
    return answer;
}

/* Draws the page that was opened, where the buffer has its size, and writes it. */
static uint32_t drawn(uint32_t answer, struct opened *opened, size_t index, bool as_image, uint8_t *buffer,
                      size_t length) {
    hayro_jbig2_context *context = NULL;
    const uint64_t row = as_image ? opened->info.width : ((uint64_t)opened->info.width + 7) / 8;
    if (answer == HAYRO_JBIG2_OK && row * opened->info.height != length)
        answer = HAYRO_JBIG2_OTHER_SIZE;
    if (answer == HAYRO_JBIG2_OK)
        answer = hayro_jbig2_context_new(NULL, &context);
    if (answer == HAYRO_JBIG2_OK)
        answer = opened->file == NULL ? hayro_jbig2_page_draw(opened->page, context)
                                      : hayro_jbig2_file_draw(opened->file, index, context);
    if (answer == HAYRO_JBIG2_OK)
        answer = as_image ? write_image(opened, context, buffer) : hayro_jbig2_context_rows(context, 0, buffer, length);
    hayro_jbig2_context_free(context);
    close_all(opened);
    return answer;
}

uint32_t hayro_jbig2_page_count(bool strict, const uint8_t *file, size_t file_length, size_t *count) {
    hayro_jbig2_file *read = NULL;
    uint32_t answer = hayro_jbig2_file_new(NULL, strict, file, file_length, &read);
    if (answer == HAYRO_JBIG2_OK)
        *count = hayro_jbig2_file_page_count(read);
    hayro_jbig2_file_free(read);
    return answer;
}

uint32_t hayro_jbig2_page_size(bool strict, const uint8_t *file, size_t file_length, size_t index, uint32_t *width,
                               uint32_t *height) {
    struct opened opened = {NULL, NULL, NULL, {0, 0, 0}};
    return sized(open_page(&opened, strict, file, file_length, index), &opened, width, height);
}

uint32_t hayro_jbig2_page_image(bool strict, const uint8_t *file, size_t file_length, size_t index, uint8_t *image,
                                size_t image_length) {
    struct opened opened = {NULL, NULL, NULL, {0, 0, 0}};
    const uint32_t answer = open_page(&opened, strict, file, file_length, index);
    return drawn(answer, &opened, index, true, image, image_length);
}

uint32_t hayro_jbig2_page_packed(bool strict, const uint8_t *file, size_t file_length, size_t index, uint8_t *rows,
                                 size_t rows_length) {
    struct opened opened = {NULL, NULL, NULL, {0, 0, 0}};
    const uint32_t answer = open_page(&opened, strict, file, file_length, index);
    return drawn(answer, &opened, index, false, rows, rows_length);
}

uint32_t hayro_jbig2_embedded_size(bool strict, const uint8_t *stream, size_t stream_length, uint32_t *width,
                                   uint32_t *height) {
    struct opened opened = {NULL, NULL, NULL, {0, 0, 0}};
    return sized(open_embedded(&opened, strict, stream, 0, stream, stream_length), &opened, width, height);
}

uint32_t hayro_jbig2_embedded_image(bool strict, const uint8_t *globals, size_t globals_length, const uint8_t *stream,
                                    size_t stream_length, uint8_t *image, size_t image_length) {
    struct opened opened = {NULL, NULL, NULL, {0, 0, 0}};
    const uint32_t answer = open_embedded(&opened, strict, globals, globals_length, stream, stream_length);
    return drawn(answer, &opened, 0, true, image, image_length);
}

uint32_t hayro_jbig2_embedded_packed(bool strict, const uint8_t *globals, size_t globals_length, const uint8_t *stream,
                                     size_t stream_length, uint8_t *rows, size_t rows_length) {
    struct opened opened = {NULL, NULL, NULL, {0, 0, 0}};
    const uint32_t answer = open_embedded(&opened, strict, globals, globals_length, stream, stream_length);
    return drawn(answer, &opened, 0, false, rows, rows_length);
}

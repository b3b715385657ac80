#define _GNU_SOURCE /* secure_getenv */
#include "context.h"

#include <stdlib.h>
#include <string.h>

/* In salvage damage leaves out as little as it can, as with libjbig2dec0. The environment may ask for lenient reading. */
static bool salvages(void) {
    const char *named = secure_getenv("HAYRO_JBIG2_READING");
    return named == NULL || strcmp(named, "lenient") != 0;
}

/* Ghostscript hands in the end of line that follows a stream. That is no segment, but the decoder takes it for one that
 * the bytes end within. They can be dropped whatever they are, since the decoder reads nothing of them. */
enum { LONGEST_LINE_END = 2 };

static bool ends_a_line(const hayro_jbig2_left_out *left_out, const uint8_t *at, size_t length) {
    bool is_cut_in_number = left_out->list_error == HAYRO_JBIG2_PARSE_UNEXPECTED_EOF &&
                            left_out->list_segment == HAYRO_JBIG2_NO_SEGMENT_NUMBER;
    return is_cut_in_number && length > 0 && (at[length - 1] == '\n' || at[length - 1] == '\r');
}

static uint32_t read_globals_in(const hayro_jbig2_memory *memory, const uint8_t *at, size_t length,
                                hayro_jbig2_globals **globals) {
    if (salvages())
        return hayro_jbig2_globals_new_salvaged(memory, least_work(), at, length, globals);
    return hayro_jbig2_globals_new_within(memory, false, least_work(), at, length, globals);
}

uint32_t read_globals(const hayro_jbig2_memory *memory, const struct bytes *bytes, hayro_jbig2_globals **globals) {
    const uint8_t *at = start_of(bytes);
    size_t length = bytes->length;
    hayro_jbig2_left_out left_out;
    uint32_t answer = read_globals_in(memory, at, length, globals);
    while (answer == HAYRO_JBIG2_OK && bytes->length - length < LONGEST_LINE_END) {
        answer = hayro_jbig2_globals_get_left_out(*globals, &left_out);
        if (answer != HAYRO_JBIG2_OK || !ends_a_line(&left_out, at, length))
            break;
        hayro_jbig2_globals_free(*globals);
        *globals = NULL;
        answer = read_globals_in(memory, at, --length, globals);
    }
    return answer;
}

static uint32_t read_page_in(const hayro_jbig2_memory *memory, hayro_jbig2_globals *globals, const uint8_t *at,
                             size_t length, hayro_jbig2_page **page) {
    if (salvages())
        return hayro_jbig2_page_new_salvaged(memory, globals, at, length, page);
    return hayro_jbig2_page_new(memory, false, globals, at, length, page);
}

uint32_t read_page(const hayro_jbig2_memory *memory, hayro_jbig2_globals *globals, const struct bytes *bytes,
                   hayro_jbig2_page **page) {
    const uint8_t *at = start_of(bytes);
    size_t length = bytes->length;
    hayro_jbig2_left_out left_out;
    uint32_t answer = read_page_in(memory, globals, at, length, page);
    while (answer == HAYRO_JBIG2_OK && bytes->length - length < LONGEST_LINE_END) {
        answer = hayro_jbig2_page_get_left_out(*page, &left_out);
        if (answer != HAYRO_JBIG2_OK || !ends_a_line(&left_out, at, length))
            break;
        hayro_jbig2_page_free(*page);
        *page = NULL;
        answer = read_page_in(memory, globals, at, --length, page);
    }
    return answer;
}

uint32_t read_file(const hayro_jbig2_memory *memory, const struct bytes *bytes, hayro_jbig2_file **file) {
    const uint8_t *at = start_of(bytes);
    size_t length = bytes->length;
    if (salvages())
        return hayro_jbig2_file_new_salvaged(memory, least_work(), at, length, file);
    return hayro_jbig2_file_new_within(memory, false, least_work(), at, length, file);
}

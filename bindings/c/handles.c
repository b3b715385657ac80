/* The calls that take a null pointer or fill an array. Each passes on what is there to proved calls, those of
 * source/src. */
#include "hayro_jbig2.h"

void jbig2_c_release(void *handle);
uint32_t jbig2_c_page_alone(const hayro_jbig2_memory *memory, bool strict, const uint8_t *stream, size_t stream_length,
                            hayro_jbig2_page **page);
uint32_t jbig2_c_page_with(const hayro_jbig2_memory *memory, bool strict, hayro_jbig2_globals *globals,
                           const uint8_t *stream, size_t stream_length, hayro_jbig2_page **page);
uint32_t jbig2_c_salvaged_alone(const hayro_jbig2_memory *memory, const uint8_t *stream, size_t stream_length,
                                hayro_jbig2_page **page);
uint32_t jbig2_c_salvaged_with(const hayro_jbig2_memory *memory, hayro_jbig2_globals *globals, const uint8_t *stream,
                               size_t stream_length, hayro_jbig2_page **page);

uint32_t hayro_jbig2_page_new(const hayro_jbig2_memory *memory, bool strict, hayro_jbig2_globals *globals,
                              const uint8_t *stream, size_t stream_length, hayro_jbig2_page **page) {
    if (globals == NULL)
        return jbig2_c_page_alone(memory, strict, stream, stream_length, page);
    return jbig2_c_page_with(memory, strict, globals, stream, stream_length, page);
}

uint32_t hayro_jbig2_page_new_salvaged(const hayro_jbig2_memory *memory, hayro_jbig2_globals *globals,
                                       const uint8_t *stream, size_t stream_length, hayro_jbig2_page **page) {
    if (globals == NULL)
        return jbig2_c_salvaged_alone(memory, stream, stream_length, page);
    return jbig2_c_salvaged_with(memory, globals, stream, stream_length, page);
}

uint32_t hayro_jbig2_file_get_infos(hayro_jbig2_file *file, hayro_jbig2_page_info *infos, size_t count) {
    hayro_jbig2_page_info none;
    /* No file has a page at this index, so this says whether the handle is a file's. */
    if (hayro_jbig2_file_get_info(file, SIZE_MAX, &none) == HAYRO_JBIG2_OTHER_HANDLE)
        return HAYRO_JBIG2_OTHER_HANDLE;
    if (count != hayro_jbig2_file_page_count(file))
        return HAYRO_JBIG2_OTHER_SIZE;
    for (size_t index = 0; index < count; index++) {
        uint32_t answer = hayro_jbig2_file_get_info(file, index, &infos[index]);
        if (answer != HAYRO_JBIG2_OK)
            return answer;
    }
    return HAYRO_JBIG2_OK;
}

static void release(void *handle) {
    if (handle != NULL)
        jbig2_c_release(handle);
}

void hayro_jbig2_globals_free(hayro_jbig2_globals *globals) { release(globals); }

void hayro_jbig2_context_free(hayro_jbig2_context *context) { release(context); }

void hayro_jbig2_page_free(hayro_jbig2_page *page) { release(page); }

void hayro_jbig2_file_free(hayro_jbig2_file *file) { release(file); }

void hayro_jbig2_written_free(hayro_jbig2_written *written) { release(written); }

/* What ../c/handles.c calls. It declares these functions itself. */
#ifndef HAYRO_JBIG2_CALLS_H
#define HAYRO_JBIG2_CALLS_H

#include "hayro_jbig2.h"

void jbig2_c_release(void *handle);
uint32_t jbig2_c_page_alone(const hayro_jbig2_memory *memory, bool strict, const uint8_t *stream, size_t stream_length,
                            hayro_jbig2_page **page);
uint32_t jbig2_c_page_with(const hayro_jbig2_memory *memory, bool strict, hayro_jbig2_globals *globals,
                           const uint8_t *stream, size_t stream_length, hayro_jbig2_page **page);
uint32_t jbig2_c_salvaged_alone(const hayro_jbig2_memory *memory, const uint8_t *stream, size_t stream_length,
                                hayro_jbig2_page **page);
uint32_t jbig2_c_salvaged_with(const hayro_jbig2_memory *memory, hayro_jbig2_globals *globals, const uint8_t *stream,
                               size_t stream_length, hayro_jbig2_page **page);

#endif

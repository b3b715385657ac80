#include "context.h"

uint32_t copy_out(struct context *context, hayro_jbig2_context *room, const hayro_jbig2_page_info *info,
                  struct page **page) {
    struct page *copy = new_page(context->allocator, info->width, info->height);
    if (copy == NULL)
        return HAYRO_JBIG2_OUT_OF_MEMORY;
    size_t size = (size_t)copy->image.row_bytes * copy->image.height;
    uint32_t answer = hayro_jbig2_context_rows(room, 0, copy->rows, size);
    if (answer == HAYRO_JBIG2_OK)
        answer = hayro_jbig2_context_get_passed_over(room, &context->lacks.passed);
    if (answer == HAYRO_JBIG2_OK)
        *page = copy;
    else
        let_page_go(copy);
    return answer;
}

uint32_t new_room(struct context *context, hayro_jbig2_context **room) {
    return hayro_jbig2_context_new(&context->memory, room);
}

static uint32_t draw(struct context *context, hayro_jbig2_page *stream, struct page **page) {
    hayro_jbig2_page_info info;
    hayro_jbig2_context *room = NULL;
    uint32_t answer = hayro_jbig2_page_get_info(stream, &info);
    if (answer == HAYRO_JBIG2_OK)
        answer = new_room(context, &room);
    if (answer == HAYRO_JBIG2_OK)
        answer = limit_room(room, &info);
    if (answer == HAYRO_JBIG2_OK)
        answer = hayro_jbig2_page_draw(stream, room);
    if (answer == HAYRO_JBIG2_OK)
        answer = copy_out(context, room, &info, page);
    hayro_jbig2_context_free(room);
    return answer;
}

uint32_t draw_embedded(struct context *context, struct page **page) {
    hayro_jbig2_page *stream = NULL;
    uint32_t answer = new_stream(context, &stream);
    if (answer == HAYRO_JBIG2_OK) {
        /* The decoder has a copy of them. */
        clear_bytes(context->allocator, &context->bytes);
        answer = hayro_jbig2_page_get_left_out(stream, &context->lacks.left_out);
    }
    if (answer == HAYRO_JBIG2_OK)
        answer = draw(context, stream, page);
    free_stream(context, stream);
    if (answer != HAYRO_JBIG2_OK)
        context->lacks = (struct lacks){0};
    return answer;
}

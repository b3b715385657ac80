#include "context.h"

uint32_t open_file(struct context *context) {
    struct open_file *open = &context->open;
    const struct bytes *bytes = &context->bytes;
    uint32_t answer = read_file(&context->memory, bytes, &open->file);
    if (answer == HAYRO_JBIG2_OK)
        answer = hayro_jbig2_file_get_left_out(open->file, &context->lacks.left_out);
    if (answer != HAYRO_JBIG2_OK) {
        context->lacks = (struct lacks){0};
        return answer;
    }
    open->count = hayro_jbig2_file_page_count(open->file);
    return open->count == 0 ? HAYRO_JBIG2_NO_SUCH_PAGE : new_room(context, &open->room);
}

/* Where more of the file comes, the pages that were handed out are not handed out again. */
void close_file(struct context *context) {
    struct open_file *open = &context->open;
    hayro_jbig2_context_free(open->room);
    hayro_jbig2_file_free(open->file);
    *open = (struct open_file){.next = open->next};
}

bool has_next(const struct context *context) {
    return context->open.room != NULL && context->open.next < context->open.count;
}

uint32_t draw_next(struct context *context, struct page **page) {
    struct open_file *open = &context->open;
    size_t index = open->next++;
    hayro_jbig2_page_info info;
    uint32_t answer = hayro_jbig2_file_get_info(open->file, index, &info);
    if (answer == HAYRO_JBIG2_OK)
        answer = limit_room(open->room, &info);
    if (answer == HAYRO_JBIG2_OK)
        answer = hayro_jbig2_file_draw(open->file, index, open->room);
    return answer == HAYRO_JBIG2_OK ? copy_out(context, open->room, &info, page) : answer;
}

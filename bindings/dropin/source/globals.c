#include "context.h"

static uint32_t decode(const hayro_jbig2_memory *memory, const struct bytes *bytes, hayro_jbig2_globals **globals) {
    if (bytes->has_hole)
        return HAYRO_JBIG2_OUT_OF_MEMORY;
    return read_globals(memory, bytes, globals);
}

/* The program jbig2dec goes on where it got no context, and a page without the globals that it needs is another page. So
   these are the globals of no context: what is made with them is refused. */
static struct context nobody = {
    .bytes = {.has_hole = true},
    .made = {.made_of = &nobody, .answer = HAYRO_JBIG2_OUT_OF_MEMORY, .holders = 1},
};

struct globals *jbig2_make_global_ctx(struct context *context) {
    if (context == NULL)
        return &nobody.made;
    struct globals *globals = &context->made;
    if (globals->made_of != NULL)
        return globals;
    *globals = (struct globals){.made_of = context, .holders = 1};
    globals->answer = decode(&context->memory, &context->bytes, &globals->decoded);
    if (globals->answer == HAYRO_JBIG2_OK)
        globals->answer = hayro_jbig2_globals_get_left_out(globals->decoded, &context->lacks.left_out);
    if (globals->answer == HAYRO_JBIG2_OK)
        tell_lacks(context);
    else
        context->lacks = (struct lacks){0};
    return globals;
}

static void free_globals(struct globals *globals) {
    if (globals == NULL)
        return;
    hayro_jbig2_globals_free(globals->decoded);
    free_context(globals->made_of);
}

struct allocator *jbig2_global_ctx_free(struct globals *globals) {
    if (globals == NULL || globals == &nobody.made)
        return NULL;
    struct allocator *allocator = globals->made_of->allocator;
    if (give_globals_up(globals))
        free_globals(globals);
    return allocator;
}

bool take_share(struct context *context, struct globals *globals) {
    struct share *share = &context->share;
    struct context *made_of = globals->made_of;
    if (made_of->allocator == context->allocator) {
        hold_globals(share, globals);
        return true;
    }
    if (!copy_bytes(context->allocator, &share->copy, &made_of->bytes))
        return false;
    borrow_globals(share, globals);
    return true;
}

static void stop_using(struct share *share) {
    if (share->used != NULL)
        free_globals(end_use(share));
}

/* A caller that left a call by longjmp may have left the globals in use. */
void drop_share(struct context *context) {
    struct share *share = &context->share;
    stop_using(share);
    free_globals(leave_globals(share));
    clear_bytes(context->allocator, &share->copy);
}

/* A handle for this context alone. Where theirs is at work elsewhere, the bytes are decoded once more: to wait could be
   for ever. */
static uint32_t share_handle(struct context *context, struct globals *globals, hayro_jbig2_globals **own) {
    if (globals->answer != HAYRO_JBIG2_OK)
        return globals->answer;
    hayro_jbig2_globals *handle = lend_handle(globals);
    if (handle == NULL)
        return decode(&context->memory, &globals->made_of->bytes, own);
    uint32_t answer = hayro_jbig2_globals_share(&context->memory, handle, own);
    return_handle(globals, handle);
    return answer;
}

uint32_t new_stream(struct context *context, hayro_jbig2_page **stream) {
    struct share *share = &context->share;
    hayro_jbig2_globals *own = NULL;
    uint32_t answer = HAYRO_JBIG2_OK;
    struct globals *globals = begin_use(share);
    if (globals != NULL)
        answer = share_handle(context, globals, &own);
    else if (share->is_borrower)
        answer = decode(&context->memory, &share->copy, &own);
    share->is_refused = answer != HAYRO_JBIG2_OK;
    if (!share->is_refused)
        answer = read_page(&context->memory, own, &context->bytes, stream);
    hayro_jbig2_globals_free(own);
    return answer;
}

void free_stream(struct context *context, hayro_jbig2_page *stream) {
    hayro_jbig2_page_free(stream);
    stop_using(&context->share);
}

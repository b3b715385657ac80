#include "context.h"

/* Layouts are known to be those of this one version. */
static bool is_our_version(struct context *context, int major, int minor) {
    if (major == ABI_MAJOR && minor == ABI_MINOR)
        return true;
    jbig2_error(context, SEVERITY_FATAL, NO_SEGMENT, "this library has the interface of jbig2dec %d.%d, not %d.%d",
                ABI_MAJOR, ABI_MINOR, major, minor);
    return false;
}

struct context *jbig2_ctx_new_imp(struct allocator *allocator, int options, struct globals *globals, listener *listen,
                                  void *listener_data, int major, int minor) {
    if (allocator == NULL)
        allocator = &default_allocator;
    struct context fresh = {
        .allocator = allocator,
        .memory = memory_of(allocator),
        .listen = listen,
        .listener_data = listener_data,
        .is_embedded = options & OPTION_EMBEDDED,
    };
    if (!is_our_version(&fresh, major, minor))
        return NULL;
    struct context *context = take(allocator, sizeof *context);
    if (context != NULL) {
        *context = fresh;
        if (globals == NULL || take_share(context, globals))
            return context;
        give_back(allocator, context);
    }
    tell_answer(&fresh, SEVERITY_FATAL, NO_SEGMENT, "no context", HAYRO_JBIG2_OUT_OF_MEMORY);
    return NULL;
}

static void let_pages_go(struct page *page) {
    while (page != NULL) {
        struct page *next = page->next;
        let_page_go(page);
        page = next;
    }
}

/* Pages that a caller holds still stay. */
void free_context(struct context *context) {
    let_pages_go(context->ready);
    let_pages_go(context->handed_out);
    close_file(context);
    drop_share(context);
    clear_bytes(context->allocator, &context->bytes);
    give_back(context->allocator, context);
}

/* With the globals that were made of it: a caller whose listener left jbig2_make_global_ctx has the context alone. */
struct allocator *jbig2_ctx_free(struct context *context) {
    if (context == NULL)
        return NULL;
    if (context->made.made_of != NULL)
        return jbig2_global_ctx_free(&context->made);
    struct allocator *allocator = context->allocator;
    free_context(context);
    return allocator;
}

/* More data after a page that was completed: of a file they are added, of an embedded page they are the next one's. */
static void go_on(struct context *context) {
    close_file(context);
    if (context->is_embedded)
        clear_bytes(context->allocator, &context->bytes);
    context->is_complete = false;
}

/* Pages may be reading the bytes of a context that became globals. */
static bool became_globals(struct context *context) {
    if (context->made.made_of == NULL)
        return false;
    jbig2_error(context, SEVERITY_FATAL, NO_SEGMENT, "this context became globals: it takes no data and draws no page");
    return true;
}

int jbig2_data_in(struct context *context, const unsigned char *data, size_t size) {
    if (context == NULL || (data == NULL && size > 0))
        return -1;
    if (size == 0)
        return 0;
    if (became_globals(context))
        return -1;
    if (context->is_complete)
        go_on(context);
    /* Not every caller looks at what this returns, so a context remembers a piece that it has not. */
    if (append(context->allocator, &context->bytes, data, size))
        return 0;
    tell_answer(context, SEVERITY_FATAL, NO_SEGMENT, "data that came are lost", HAYRO_JBIG2_OUT_OF_MEMORY);
    return -1;
}

static void add_ready(struct context *context, struct page *page) {
    struct page **last = &context->ready;
    while (*last != NULL)
        last = &(*last)->next;
    *last = page;
}

/* The first page is drawn here, so that a refusal shows where callers look. */
static uint32_t complete(struct context *context) {
    struct page *page = NULL;
    uint32_t answer;
    context->share.is_refused = false;
    if (context->bytes.has_hole)
        return HAYRO_JBIG2_OUT_OF_MEMORY;
    if (context->is_embedded) {
        answer = draw_embedded(context, &page);
    } else {
        answer = open_file(context);
        if (answer == HAYRO_JBIG2_OK && has_next(context))
            answer = draw_next(context, &page);
    }
    if (page != NULL)
        add_ready(context, page);
    return answer;
}

static void tell_refusal(struct context *context) {
    const char *what = context->share.is_refused ? "the page's globals are refused" : "the page is refused";
    tell_answer(context, SEVERITY_FATAL, NO_SEGMENT, what, context->answer);
}

int jbig2_complete_page(struct context *context) {
    if (context == NULL)
        return -1;
    if (context->is_complete)
        return context->answer == HAYRO_JBIG2_OK ? 0 : -1;
    if (became_globals(context))
        return -1;
    context->is_complete = true;
    context->answer = complete(context);
    tell_lacks(context);
    if (context->answer != HAYRO_JBIG2_OK)
        tell_refusal(context);
    return context->answer == HAYRO_JBIG2_OK ? 0 : -1;
}

/* The next page of the file that can be drawn. */
static struct page *next_of_file(struct context *context) {
    struct page *page = NULL;
    while (page == NULL && has_next(context)) {
        uint32_t answer = draw_next(context, &page);
        if (answer != HAYRO_JBIG2_OK)
            tell_answer(context, SEVERITY_FATAL, NO_SEGMENT, "a page is refused", answer);
    }
    return page;
}

struct image *jbig2_page_out(struct context *context) {
    if (context == NULL)
        return NULL;
    if (context->ready == NULL)
        context->ready = next_of_file(context);
    struct page *page = context->ready;
    if (page == NULL)
        return NULL;
    /* Before the page has another holder: a caller whose listener leaves gets it by the next call. */
    tell_lacks(context);
    context->ready = page->next;
    page->next = context->handed_out;
    context->handed_out = page;
    page->image.holders++;
    return &page->image;
}

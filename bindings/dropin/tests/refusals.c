/* Each request for memory, refused in turn: no other picture than the one that is meant, and all is given back. */
#include "support.h"

#include <string.h>

/* What a caller gets that looks at no answer, as Ghostscript. */
struct outcome {
    unsigned pages;
    struct heard heard;
};

static struct outcome of_a_stream(struct allocator *of_globals, struct allocator *allocator, bool are_freed_first) {
    struct outcome outcome = {0};
    struct globals *globals = made_globals(of_globals, &outcome.heard);
    struct context *context = embedded_context(allocator, globals, &outcome.heard);
    for (size_t at = 0; at < stream.length; at += 64) {
        jbig2_data_in(context, stream.at + at, stream.length - at < 64 ? stream.length - at : 64);
        CHECK(jbig2_page_out(context) == NULL);
    }
    if (are_freed_first)
        jbig2_global_ctx_free(globals);
    jbig2_complete_page(context);
    struct image *image = jbig2_page_out(context);
    if (image != NULL) {
        CHECK(is_meant(image));
        outcome.pages++;
    }
    jbig2_release_page(context, image);
    if (!are_freed_first)
        jbig2_global_ctx_free(globals);
    jbig2_ctx_free(context);
    return outcome;
}

static struct outcome of_a_file(struct allocator *allocator) {
    static const uint32_t widths[BOOK_PAGES] = {64, 64, 37};
    struct outcome outcome = {0};
    struct context *context = file_context(allocator, &outcome.heard);
    jbig2_data_in(context, book.at, book.length);
    jbig2_complete_page(context);
    struct image *image;
    unsigned next = 0;
    while ((image = jbig2_page_out(context)) != NULL) {
        /* Pages that are refused are left out. */
        while (next < BOOK_PAGES && widths[next] != image->width)
            next++;
        CHECK(next < BOOK_PAGES);
        CHECK(memcmp(image->rows + 2 * image->row_bytes, image->width == 64 ? "\x08\x40" : "\x80\x7C", 2) == 0);
        outcome.pages++;
        next++;
        jbig2_release_page(context, image);
    }
    jbig2_ctx_free(context);
    return outcome;
}

/* With its globals, with globals that are freed first, and with such as another allocator has. */
enum way { STREAM, STREAM_WITHOUT_GLOBALS, STREAM_WITH_COPY, STREAM_WITH_BORROWED, FILE_OF_PAGES, WAYS };

static struct outcome run(enum way way, struct allocator *allocator) {
    bool has_own = way == STREAM_WITH_COPY || way == STREAM_WITH_BORROWED;
    bool are_freed_first = way == STREAM_WITHOUT_GLOBALS || way == STREAM_WITH_COPY;
    return way == FILE_OF_PAGES ? of_a_file(allocator)
                                : of_a_stream(has_own ? NULL : allocator, allocator, are_freed_first);
}

void refuses_each_request(void) {
    for (enum way way = STREAM; way < WAYS; way++) {
        unsigned pages = way == FILE_OF_PAGES ? BOOK_PAGES : 1;
        unsigned long refused = 0;
        struct outcome outcome;
        for (;;) {
            struct counted memory = counted_allocator();
            memory.refused_request = refused + 1;
            outcome = run(way, &memory.base);
            CHECK(memory.held == 0);
            if (memory.requests <= refused)
                break;
            refused++;
            CHECK(outcome.pages < pages && outcome.heard.count[SEVERITY_FATAL] > 0);
        }
        CHECK(outcome.pages == pages && outcome.heard.count[SEVERITY_FATAL] == 0);
        printf("%lu requests for memory refused in turn\n", refused);
    }
}

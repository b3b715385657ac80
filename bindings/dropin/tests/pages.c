/* Pages of files and of streams one after the other, and which messages the listener gets. */
#include "support.h"

#include <string.h>

static void take_in(struct context *context, const uint8_t *bytes, size_t length, size_t piece) {
    for (size_t at = 0; at < length; at += piece)
        CHECK(jbig2_data_in(context, bytes + at, length - at < piece ? length - at : piece) == 0);
}

/* T.88, H.1: pages 1 and 2 are the same, 64 by 56; page 3 is 37 by 8. */
static void hands_out_the_pages_of_a_file(size_t piece) {
    struct counted memory = counted_allocator();
    struct heard heard = {0};
    struct context *context = file_context(&memory.base, &heard);
    take_in(context, book.at, book.length, piece);
    CHECK(jbig2_page_out(context) == NULL);
    CHECK(jbig2_complete_page(context) == 0 && jbig2_complete_page(context) == 0);
    struct image *images[BOOK_PAGES];
    for (int i = 0; i < BOOK_PAGES; i++) {
        images[i] = jbig2_page_out(context);
        CHECK(images[i] != NULL && images[i]->holders == 2);
    }
    CHECK(jbig2_page_out(context) == NULL && jbig2_page_out(context) == NULL);
    CHECK(images[0]->width == 64 && images[0]->height == 56 && images[0]->row_bytes == 8);
    CHECK(images[2]->width == 37 && images[2]->height == 8 && images[2]->row_bytes == 5);
    CHECK(memcmp(images[0]->rows, images[1]->rows, 8 * 56) == 0);
    CHECK(memcmp(images[2]->rows, "\x78\x78\xF0\xF0\xF0", 5) == 0);
    for (int i = 0; i < BOOK_PAGES; i++)
        jbig2_release_page(context, images[i]);
    CHECK(jbig2_ctx_free(context) == &memory.base);
    CHECK(memory.held == 0 && heard.count[SEVERITY_FATAL] == 0);
}

static struct context *completed_book(struct counted *memory, struct heard *heard) {
    struct context *context = file_context(&memory->base, heard);
    take_in(context, book.at, book.length, 4096);
    CHECK(jbig2_complete_page(context) == 0);
    return context;
}

/* The context is one of the holders of a page, until it is freed: its rows can be read after it is released, and to
 * release it twice does no harm. */
static void keeps_a_page_until_it_is_freed(void) {
    struct counted memory = counted_allocator();
    struct heard heard = {0};
    struct context *context = completed_book(&memory, &heard), *other = file_context(&memory.base, &heard);
    struct image *image = jbig2_page_out(context);
    long held = memory.held;
    CHECK(image->holders == 2);
    for (int i = 0; i < 3; i++) {
        jbig2_release_page(i == 2 ? other : context, image);
        CHECK(image->holders == 1 && memory.held == held && image->rows[8] == 0x07);
    }
    CHECK(jbig2_image_reference(context, image) == image && image->holders == 2);
    jbig2_image_release(context, image);
    jbig2_image_release(context, image);
    CHECK(image->holders == 1 && memory.held == held && image->rows[8] == 0x07);
    jbig2_ctx_free(context);
    jbig2_ctx_free(other);
    CHECK(memory.held == 0);
}

/* A page is its other holders', also after the context is freed. Pages that nobody asked for go with the context. */
static void leaves_a_page_to_its_holders(void) {
    struct counted memory = counted_allocator();
    struct heard heard = {0};
    struct context *context = completed_book(&memory, &heard);
    struct image *image = jbig2_page_out(context), *next = jbig2_page_out(context);
    CHECK(jbig2_image_reference(context, image) == image && image->holders == 3);
    jbig2_release_page(context, image);
    CHECK(image->holders == 2);
    jbig2_ctx_free(context);
    CHECK(memory.held == 2 && image->holders == 1 && image->rows[8] == 0x07 && next->holders == 1);
    jbig2_image_release(NULL, image);
    CHECK(memory.held == 1 && next->rows[8] == 0x07);
    jbig2_release_page(NULL, next);
    CHECK(memory.held == 0);

    jbig2_ctx_free(completed_book(&memory, &heard));
    CHECK(memory.held == 0);
}

/* After a page was completed what comes is the next page's, and pages come out in their order. */
static void hands_out_one_stream_after_the_other(void) {
    struct counted memory = counted_allocator();
    struct heard heard = {0};
    struct globals *globals = made_globals(&memory.base, &heard);
    struct context *context = embedded_context(&memory.base, globals, &heard);
    for (int i = 0; i < 3; i++) {
        take_in(context, stream.at, stream.length, 2047);
        CHECK(jbig2_complete_page(context) == 0);
    }
    for (int i = 0; i < 3; i++) {
        struct image *image = jbig2_page_out(context);
        CHECK(image != NULL && is_meant(image));
        jbig2_release_page(context, image);
    }
    CHECK(jbig2_page_out(context) == NULL);
    jbig2_ctx_free(context);
    jbig2_global_ctx_free(globals);
    CHECK(memory.held == 0);
}

/* Nothing is left of a stream that was refused. */
static void draws_after_a_refused_stream(void) {
    struct counted memory = counted_allocator();
    struct heard heard = {0};
    struct globals *globals = made_globals(&memory.base, &heard);
    struct context *context = embedded_context(&memory.base, globals, &heard);
    take_in(context, stream.at, 20, 20);
    CHECK(jbig2_complete_page(context) == -1 && heard.count[SEVERITY_FATAL] == 1);
    take_in(context, stream.at, stream.length, 2047);
    CHECK(jbig2_complete_page(context) == 0);
    struct image *image = jbig2_page_out(context);
    CHECK(image != NULL && is_meant(image));
    jbig2_release_page(context, image);
    jbig2_ctx_free(context);
    jbig2_global_ctx_free(globals);
    CHECK(memory.held == 0);
}

/* A file that goes on after a page was asked for, and once more after its first page: that isn't handed out again. */
static void goes_on_with_a_file(void) {
    struct counted memory = counted_allocator();
    struct heard heard = {0};
    struct context *context = file_context(&memory.base, &heard);
    take_in(context, book.at, 13, 13);
    CHECK(jbig2_complete_page(context) == -1 && heard.count[SEVERITY_FATAL] == 1);
    take_in(context, book.at + 13, book.length - 13, 100);
    CHECK(jbig2_complete_page(context) == 0);
    for (int i = 0; i < BOOK_PAGES; i++) {
        struct image *image = jbig2_page_out(context);
        if (i == 0) {
            take_in(context, (const uint8_t *)"\n", 1, 1);
            CHECK(jbig2_complete_page(context) == 0);
        }
        CHECK(image != NULL && image->width == (i < 2 ? 64 : 37));
        jbig2_release_page(context, image);
    }
    CHECK(jbig2_page_out(context) == NULL);
    jbig2_ctx_free(context);
    CHECK(memory.held == 0);
}

static void refuses(bool is_file, const void *bytes, size_t length, const char *why) {
    struct counted memory = counted_allocator();
    struct heard heard = {0};
    struct context *context =
        is_file ? file_context(&memory.base, &heard) : embedded_context(&memory.base, NULL, &heard);
    CHECK(jbig2_data_in(context, bytes, length) == 0);
    CHECK(jbig2_complete_page(context) == -1);
    CHECK(heard.count[SEVERITY_FATAL] == 1 && heard.segment == NO_SEGMENT);
    CHECK(strstr(heard.text, why) != NULL);
    CHECK(jbig2_page_out(context) == NULL);
    jbig2_ctx_free(context);
    CHECK(memory.held == 0);
}

static void tells_what_it_refuses(void) {
    refuses(false, "", 0, TEXT_OF_FORMAT_MISSING_PAGE_INFO);
    refuses(false, stream.at, 10, TEXT_OF_FORMAT_MISSING_PAGE_INFO);
    refuses(true, "", 0, TEXT_OF_PARSE_UNEXPECTED_EOF);
    refuses(true, "no file at all", 14, TEXT_OF_FORMAT_INVALID_HEADER);
    refuses(true, book.at, 13, "no such page");
}

/* The stream with a region after its last, whose data end before its flags: it is passed over, with its number. */
static void tells_what_was_passed_over(void) {
    static const uint8_t region[] = "\0\0\0\x7B\x26\0\1\0\0\0\x11\0\0\0\x08\0\0\0\1\0\0\0\0\0\0\0\0\0";
    struct counted memory = counted_allocator();
    struct heard heard = {0};
    struct globals *globals = made_globals(&memory.base, &heard);
    struct context *context = embedded_context(&memory.base, globals, &heard);
    take_in(context, stream.at, stream.length, 4096);
    take_in(context, region, sizeof region - 1, 4096);
    CHECK(jbig2_complete_page(context) == 0);
    CHECK(heard.count[SEVERITY_WARNING] == 1 && heard.segment == 0x7B);
    CHECK(strstr(heard.text, "passed over") != NULL);
    struct image *image = jbig2_page_out(context);
    CHECK(image != NULL && is_meant(image));
    jbig2_release_page(context, image);
    jbig2_ctx_free(context);
    jbig2_global_ctx_free(globals);
    CHECK(memory.held == 0 && heard.count[SEVERITY_FATAL] == 0);
}

/* Whether a page or file is warned of whose last bytes are cut off, or that more bytes follow. */
static void warns(bool is_file, const struct file *bytes, size_t cut_off, const char *more, unsigned warnings,
                  const char *why) {
    struct counted memory = counted_allocator();
    struct heard heard = {0};
    struct globals *globals = is_file ? NULL : made_globals(&memory.base, &heard);
    struct context *context =
        is_file ? file_context(&memory.base, &heard) : embedded_context(&memory.base, globals, &heard);
    take_in(context, bytes->at, bytes->length - cut_off, 4096);
    take_in(context, (const uint8_t *)more, strlen(more), 4096);
    CHECK(jbig2_complete_page(context) == 0);
    struct image *image;
    while ((image = jbig2_page_out(context)) != NULL)
        jbig2_release_page(context, image);
    CHECK(heard.count[SEVERITY_WARNING] == warnings && heard.count[SEVERITY_FATAL] == 0);
    CHECK(strstr(heard.text, why) != NULL);
    jbig2_ctx_free(context);
    jbig2_global_ctx_free(globals);
    CHECK(memory.held == 0);
}

/* A segment that is cut off, in its data and in its header, and one of type 63. Ends of lines are no segment, nor is what
 * follows a file. */
static void tells_what_is_left_out(void) {
    static const char cut[] = "a segment is left out: " TEXT_OF_PARSE_UNEXPECTED_EOF;
    static const char page_cut[] = "a segment was passed over: " TEXT_OF_PARSE_UNEXPECTED_EOF;
    warns(false, &stream, 0, "", 0, "");
    warns(false, &stream, 0, "\n", 0, "");
    warns(false, &stream, 0, "\r\n", 0, "");
    warns(false, &stream, 0, "\n\r\n", 1, cut);
    warns(false, &stream, 0, "1234\x3F", 1, cut);
    warns(false, &stream, 1, "", 1, cut);
    warns(false, &stream, 2, "\n", 1, cut);
    warns(true, &book, 0, "", 0, "");
    warns(true, &book, 0, "more", 0, "");
    /* In the end of the file, and in the last segment of page 3 before its end. */
    warns(true, &book, 1, "", 1, cut);
    warns(true, &book, 11 + 11 + 1, "", 2, page_cut);
}

/* A segment of type 63, and after it one with a bad count of references, which ends the list. */
static void tells_what_is_left_out_before_the_rest(void) {
    static const uint8_t more[] = "\0\0\0\x7B\x3F\0\1\0\0\0\0"
                                  "\0\0\0\x7C\x26\xA0\1\0\0\0\0";
    struct counted memory = counted_allocator();
    struct heard heard = {0};
    struct globals *globals = made_globals(&memory.base, &heard);
    struct context *context = embedded_context(&memory.base, globals, &heard);
    take_in(context, stream.at, stream.length, 4096);
    take_in(context, more, 11, 11);
    CHECK(jbig2_complete_page(context) == 0);
    unsigned before = heard.count[SEVERITY_WARNING];
    CHECK(heard.segment == 0x7B);
    take_in(context, stream.at, stream.length, 4096);
    take_in(context, more, sizeof more - 1, 4096);
    CHECK(jbig2_complete_page(context) == 0);
    CHECK(heard.count[SEVERITY_WARNING] == 2 * before + 1);
    CHECK(heard.segment == 0x7C && strstr(heard.text, TEXT_OF_SEGMENT_INVALID_REFERRED_COUNT) != NULL);
    jbig2_ctx_free(context);
    jbig2_global_ctx_free(globals);
    CHECK(memory.held == 0);
}

static void formats_messages(void) {
    struct counted memory = counted_allocator();
    struct heard heard = {0};
    struct context *context = file_context(&memory.base, &heard);
    CHECK(jbig2_error(context, SEVERITY_INFO, 7, "%s of %d", "three", 4) == -1);
    CHECK(heard.count[SEVERITY_INFO] == 1 && heard.segment == 7 && strcmp(heard.text, "three of 4") == 0);
    CHECK(jbig2_error(context, SEVERITY_FATAL, NO_SEGMENT, "%01500d", 1) == -1);
    CHECK(strlen(heard.text) == sizeof heard.text - 1);
    jbig2_ctx_free(context);
}

void hands_out_pages(void) {
    hands_out_the_pages_of_a_file(1);
    hands_out_the_pages_of_a_file(4096);
    keeps_a_page_until_it_is_freed();
    leaves_a_page_to_its_holders();
    hands_out_one_stream_after_the_other();
    draws_after_a_refused_stream();
    goes_on_with_a_file();
    tells_what_it_refuses();
    tells_what_was_passed_over();
    tells_what_is_left_out();
    tells_what_is_left_out_before_the_rest();
    formats_messages();
}

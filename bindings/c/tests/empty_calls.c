/* Makes each call that takes bytes with none: a null pointer beside a length of 0 does what any other pointer does.
 * usage: empty_calls PAGE FILE, which are page.jb2 and t88-h1.jb2 of crates/jbig2_decode/data. */
#include "checks.h"

static struct bytes page, book, globals_of_text, text;
static const uint64_t any_work = HAYRO_JBIG2_NO_WORK_LIMIT;

/* What a call returned, and what it wrote. */
struct outcome {
    uint32_t answer, numbers[8];
    size_t sizes[2];
};

static bool is_same(const struct outcome *one, const struct outcome *other) {
    return memcmp(one, other, sizeof *one) == 0;
}

/* The calls on bytes, by their place in the header. `at` points to no bytes. */
enum { CALLS_ON_BYTES = 7 };

static void call_on_bytes(int call, bool strict, const uint8_t *at, struct outcome *out) {
    uint8_t rows[64] = {0};
    switch (call) {
    case 0:
        out->answer = hayro_jbig2_page_count(strict, at, 0, &out->sizes[0]);
        break;
    case 1:
        out->answer = hayro_jbig2_page_size(strict, at, 0, 0, &out->numbers[0], &out->numbers[1]);
        break;
    case 2:
        out->answer = hayro_jbig2_page_image(strict, at, 0, 0, rows, sizeof rows);
        break;
    case 3:
        out->answer = hayro_jbig2_page_packed(strict, at, 0, 0, rows, sizeof rows);
        break;
    case 4:
        out->answer = hayro_jbig2_embedded_size(strict, at, 0, &out->numbers[0], &out->numbers[1]);
        break;
    case 5:
        out->answer = hayro_jbig2_embedded_image(strict, at, 0, at, 0, rows, sizeof rows);
        break;
    default:
        out->answer = hayro_jbig2_embedded_packed(strict, at, 0, at, 0, rows, sizeof rows);
    }
    out->numbers[2] = rows[0];
}

/* The calls on one segment. */
enum { CALLS_ON_SEGMENTS = 4 };

static void call_on_segment(int call, bool strict, const uint8_t *at, struct outcome *out) {
    hayro_jbig2_segment_info info = {0, 0, 0, 0, 0, 0};
    hayro_jbig2_region_info region = {0, 0, 0, 0, 0};
    if (call == 0)
        out->answer = hayro_jbig2_segment_get_info(NULL, strict, at, 0, &info);
    else if (call == 1)
        out->answer = hayro_jbig2_segment_get_references(NULL, strict, at, 0, NULL, 0);
    else if (call == 2)
        out->answer = hayro_jbig2_segment_get_length(NULL, strict, at, 0, &out->sizes[0]);
    else
        out->answer = hayro_jbig2_region_get_info(at, 0, &region);
    out->sizes[1] = info.header_length;
    out->numbers[0] = region.width;
}

/* The calls that make a handle, each with what the handle lacks. */
enum { CALLS_FOR_HANDLES = 8 };

static void call_for_handle(int call, bool strict, const uint8_t *at, struct outcome *out) {
    hayro_jbig2_globals *globals = NULL;
    hayro_jbig2_page *read = NULL;
    hayro_jbig2_file *file = NULL;
    hayro_jbig2_left_out lacks = {0, 0, 0, 0, 0, 0, 0};
    switch (call) {
    case 0:
        out->answer = hayro_jbig2_globals_new(NULL, strict, at, 0, &globals);
        break;
    case 1:
        out->answer = hayro_jbig2_globals_new_within(NULL, strict, any_work, at, 0, &globals);
        break;
    case 2:
        out->answer = hayro_jbig2_globals_new_salvaged(NULL, any_work, at, 0, &globals);
        break;
    case 3:
        out->answer = hayro_jbig2_page_new(NULL, strict, NULL, at, 0, &read);
        break;
    case 4:
        out->answer = hayro_jbig2_page_new_salvaged(NULL, NULL, at, 0, &read);
        break;
    case 5:
        out->answer = hayro_jbig2_file_new(NULL, strict, at, 0, &file);
        break;
    case 6:
        out->answer = hayro_jbig2_file_new_within(NULL, strict, any_work, at, 0, &file);
        break;
    default:
        out->answer = hayro_jbig2_file_new_salvaged(NULL, any_work, at, 0, &file);
    }
    CHECK((out->answer == HAYRO_JBIG2_OK) == (call < 3) && (globals != NULL) == (call < 3));
    CHECK(read == NULL && file == NULL);
    if (globals != NULL)
        CHECK(hayro_jbig2_globals_get_left_out(globals, &lacks) == HAYRO_JBIG2_OK && lacks.segments == 0 &&
              lacks.list_error == 0);
    hayro_jbig2_globals_free(globals);
}

static void compare(void (*made)(int, bool, const uint8_t *, struct outcome *), int calls) {
    for (int call = 0; call < calls; call++)
        for (int strict = 0; strict < 2; strict++) {
            struct outcome null, other;
            memset(&null, 0, sizeof null);
            memset(&other, 0, sizeof other);
            made(call, strict, NULL, &null);
            made(call, strict, page.at, &other);
            CHECK(is_same(&null, &other));
        }
}

/* A page is drawn with globals of no bytes. */
static void draws_without_globals(bool strict) {
    uint8_t row = 0xA5, image[8];
    CHECK(hayro_jbig2_embedded_packed(strict, NULL, 0, page.at, page.length, &row, 1) == HAYRO_JBIG2_OK && row == 0);
    CHECK(hayro_jbig2_embedded_image(strict, NULL, 0, page.at, page.length, image, 8) == HAYRO_JBIG2_OK);
    CHECK(image[0] == 255 && image[7] == 255);

    hayro_jbig2_globals *globals = NULL, *shared = NULL;
    hayro_jbig2_page *read = NULL, *none = NULL;
    hayro_jbig2_context *context = NULL;
    CHECK(hayro_jbig2_globals_new(NULL, strict, NULL, 0, &globals) == HAYRO_JBIG2_OK);
    CHECK(hayro_jbig2_globals_share(NULL, globals, &shared) == HAYRO_JBIG2_OK);
    CHECK(hayro_jbig2_context_new(NULL, &context) == HAYRO_JBIG2_OK);
    CHECK(hayro_jbig2_page_new(NULL, strict, shared, page.at, page.length, &read) == HAYRO_JBIG2_OK);
    CHECK(hayro_jbig2_page_new(NULL, strict, shared, NULL, 0, &none) == HAYRO_JBIG2_FORMAT_MISSING_PAGE_INFO);
    CHECK(hayro_jbig2_page_draw(read, context) == HAYRO_JBIG2_OK);
    /* No bytes of the rows, at each place that they have. */
    CHECK(hayro_jbig2_context_rows(context, 0, NULL, 0) == HAYRO_JBIG2_OK);
    CHECK(hayro_jbig2_context_rows(context, 1, NULL, 0) == HAYRO_JBIG2_OK);
    CHECK(hayro_jbig2_context_rows(context, 2, NULL, 0) == HAYRO_JBIG2_OTHER_SIZE);
    hayro_jbig2_page_free(read);
    hayro_jbig2_globals_free(globals);
    hayro_jbig2_globals_free(shared);
    hayro_jbig2_context_free(context);
}

/* A page that needs globals lacks them, as where they are of no bytes elsewhere. */
static void lacks_globals(const uint8_t *at) {
    uint8_t row = 0xA5;
    CHECK(hayro_jbig2_embedded_packed(true, at, 0, text.at, text.length, &row, 1) ==
          HAYRO_JBIG2_SEGMENT_INVALID_REFERENCE);
    CHECK(row == 0xA5);
    CHECK(hayro_jbig2_embedded_packed(false, at, 0, text.at, text.length, &row, 1) == HAYRO_JBIG2_OK && row == 0);
}

/* A null pointer is a buffer of another size, and so it is for a list. */
static void refuses_no_buffer(bool strict) {
    hayro_jbig2_file *file = NULL;
    CHECK(hayro_jbig2_page_packed(strict, book.at, book.length, 0, NULL, 0) == HAYRO_JBIG2_OTHER_SIZE);
    CHECK(hayro_jbig2_page_image(strict, book.at, book.length, 0, NULL, 0) == HAYRO_JBIG2_OTHER_SIZE);
    CHECK(hayro_jbig2_embedded_packed(strict, NULL, 0, page.at, page.length, NULL, 0) == HAYRO_JBIG2_OTHER_SIZE);
    CHECK(hayro_jbig2_embedded_image(strict, NULL, 0, page.at, page.length, NULL, 0) == HAYRO_JBIG2_OTHER_SIZE);
    CHECK(hayro_jbig2_segment_get_references(NULL, strict, page.at, page.length, NULL, 0) == HAYRO_JBIG2_OK);
    CHECK(hayro_jbig2_file_new(NULL, strict, book.at, book.length, &file) == HAYRO_JBIG2_OK);
    CHECK(hayro_jbig2_file_get_infos(file, NULL, 0) == HAYRO_JBIG2_OTHER_SIZE);
    hayro_jbig2_file_free(file);
}

int main(int count, char **words) {
    if (count != 3)
        return 2;
    read_file(words[1], &page);
    read_file(words[2], &book);
    page_with_globals(&page, &globals_of_text, &text);
    lacks_globals(NULL);
    lacks_globals(page.at);
    compare(call_on_bytes, CALLS_ON_BYTES);
    compare(call_on_segment, CALLS_ON_SEGMENTS);
    compare(call_for_handle, CALLS_FOR_HANDLES);
    for (int strict = 0; strict < 2; strict++) {
        draws_without_globals(strict);
        refuses_no_buffer(strict);
    }
    printf("%u checks of calls with no bytes, %u failed\n", checks, failures);
    return failures > 0;
}

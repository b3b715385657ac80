/* Calls libhayro_jbig2.a as a C program does. usage: calls PAGE FILE, which are page.jb2 and t88-h1.jb2 of
 * crates/jbig2_decode/data. It is linked with malloc, realloc and free wrapped, so that it can refuse memory. */
#include "checks.h"

/* The requests for memory of a call: the one of this number is refused. */
static unsigned long requests, refused_request;
static long held;

void *__real_malloc(size_t size);
void *__real_realloc(void *block, size_t size);
void __real_free(void *block);

void *__wrap_malloc(size_t size) {
    void *block = ++requests == refused_request ? NULL : __real_malloc(size);
    held += block != NULL;
    return block;
}

void *__wrap_realloc(void *block, size_t size) {
    void *moved = ++requests == refused_request ? NULL : __real_realloc(block, size);
    held += block == NULL && moved != NULL;
    return moved;
}

void __wrap_free(void *block) {
    held -= block != NULL;
    __real_free(block);
}

static struct bytes page, book, globals, none, taken;

/* A page with the byte at this place put in place of its own. */
static struct bytes with_byte(const struct bytes *bytes, size_t place, uint8_t byte) {
    struct bytes changed = *bytes;
    changed.at[place] = byte;
    return changed;
}

/* A buffer between bytes that nobody may write. */
enum { ROOM = 65536, MARGIN = 64, UNTOUCHED = 0xA5 };
static uint8_t whole[MARGIN + ROOM + MARGIN];
static uint8_t *const buffer = whole + MARGIN;

static void clear(void) { memset(whole, UNTOUCHED, sizeof whole); }

/* Whether nothing was written outside of the buffer's first bytes. */
static bool is_kept_behind(size_t length) {
    for (size_t i = 0; i < sizeof whole; i++)
        if ((i < MARGIN || i >= MARGIN + length) && whole[i] != UNTOUCHED)
            return false;
    return true;
}

static bool is_black(const uint64_t *rows, unsigned row_bytes, unsigned x, unsigned y) {
    return rows[y] >> (8 * row_bytes - 1 - x) & 1;
}

static bool is_packed(const uint64_t *rows, unsigned row_bytes, unsigned height) {
    for (unsigned i = 0; i < row_bytes * height; i++)
        if (buffer[i] != (rows[i / row_bytes] >> (8 * (row_bytes - 1 - i % row_bytes)) & 0xFF))
            return false;
    return is_kept_behind(row_bytes * height);
}

static bool is_image(const uint64_t *rows, unsigned width, unsigned height) {
    for (unsigned i = 0; i < width * height; i++)
        if (buffer[i] != (is_black(rows, (width + 7) / 8, i % width, i / width) ? 0 : 255))
            return false;
    return is_kept_behind(width * height);
}

static void draws_the_pages_of_a_file(bool strict) {
    size_t count = 0;
    CHECK(hayro_jbig2_page_count(strict, book.at, book.length, &count) == HAYRO_JBIG2_OK && count == 3);
    for (size_t index = 0; index < 3; index++) {
        const uint64_t *rows = index < 2 ? both_pages : third_page;
        uint32_t width = 0, height = 0;
        CHECK(hayro_jbig2_page_size(strict, book.at, book.length, index, &width, &height) == HAYRO_JBIG2_OK);
        CHECK(width == (index < 2 ? 64 : 37) && height == (index < 2 ? 56 : 8));
        clear();
        CHECK(hayro_jbig2_page_image(strict, book.at, book.length, index, buffer, width * height) == HAYRO_JBIG2_OK);
        CHECK(is_image(rows, width, height));
        clear();
        CHECK(hayro_jbig2_page_packed(strict, book.at, book.length, index, buffer, (width + 7) / 8 * height) ==
              HAYRO_JBIG2_OK);
        CHECK(is_packed(rows, (width + 7) / 8, height));
    }
}

/* A page of one row of 8 or 9 pixels, by its first pixels. */
static void draws(const struct bytes *with, const struct bytes *stream, uint32_t columns, uint64_t row) {
    for (int strict = 0; strict < 2; strict++) {
        unsigned row_bytes = (columns + 7) / 8;
        uint32_t width = 0, height = 0;
        CHECK(hayro_jbig2_embedded_size(strict, stream->at, stream->length, &width, &height) == HAYRO_JBIG2_OK);
        CHECK(width == columns && height == 1);
        clear();
        CHECK(hayro_jbig2_embedded_image(strict, with->at, with->length, stream->at, stream->length, buffer, columns) ==
              HAYRO_JBIG2_OK);
        CHECK(is_image(&row, columns, 1));
        clear();
        CHECK(hayro_jbig2_embedded_packed(strict, with->at, with->length, stream->at, stream->length, buffer,
                                          row_bytes) == HAYRO_JBIG2_OK);
        CHECK(is_packed(&row, row_bytes, 1));
    }
}

/* The calls in turn, so that all can be tried on one refusal. Those on files see the file and the index, the others
 * the globals and the stream. */
enum call { COUNT, SIZE, IMAGE, PACKED, EMBEDDED_SIZE, EMBEDDED_IMAGE, EMBEDDED_PACKED, CALLS };

struct input {
    const struct bytes *file, *globals, *stream;
    size_t index, length;
    bool strict;
};

static size_t told_count;
static uint32_t told_width, told_height;

static uint32_t made(enum call call, const struct input *in) {
    const struct bytes *file = in->file, *with = in->globals, *stream = in->stream;
    clear();
    told_count = 12345;
    told_width = 54321;
    told_height = 43210;
    switch (call) {
    case COUNT:
        return hayro_jbig2_page_count(in->strict, file->at, file->length, &told_count);
    case SIZE:
        return hayro_jbig2_page_size(in->strict, file->at, file->length, in->index, &told_width, &told_height);
    case IMAGE:
        return hayro_jbig2_page_image(in->strict, file->at, file->length, in->index, buffer, in->length);
    case PACKED:
        return hayro_jbig2_page_packed(in->strict, file->at, file->length, in->index, buffer, in->length);
    case EMBEDDED_SIZE:
        return hayro_jbig2_embedded_size(in->strict, stream->at, stream->length, &told_width, &told_height);
    case EMBEDDED_IMAGE:
        return hayro_jbig2_embedded_image(in->strict, with->at, with->length, stream->at, stream->length, buffer,
                                          in->length);
    case EMBEDDED_PACKED:
        return hayro_jbig2_embedded_packed(in->strict, with->at, with->length, stream->at, stream->length, buffer,
                                           in->length);
    default:
        abort();
    }
}

/* Whether all that a call could have written is as it was. */
static bool is_kept(void) {
    return told_count == 12345 && told_width == 54321 && told_height == 43210 && is_kept_behind(0);
}

static void refuses(enum call call, struct input in, uint32_t answer) {
    CHECK(made(call, &in) == answer);
    CHECK(is_kept());
    CHECK(held == 0);
}

static void refuses_other_sizes(void) {
    const size_t images[] = {0, 1, 64 * 56 - 1, 64 * 56 + 1, 8 * 56};
    const size_t rows[] = {0, 1, 8 * 56 - 1, 8 * 56 + 1, 64 * 56};
    for (int i = 0; i < 5; i++) {
        refuses(IMAGE, (struct input){.file = &book, .length = images[i]}, HAYRO_JBIG2_OTHER_SIZE);
        refuses(PACKED, (struct input){.file = &book, .length = rows[i]}, HAYRO_JBIG2_OTHER_SIZE);
    }
    for (size_t length = 0; length < 10; length++) {
        struct input in = {.globals = &none, .stream = &page, .length = length};
        if (length != 8)
            refuses(EMBEDDED_IMAGE, in, HAYRO_JBIG2_OTHER_SIZE);
        if (length != 1)
            refuses(EMBEDDED_PACKED, in, HAYRO_JBIG2_OTHER_SIZE);
    }
}

static void refuses_other_pages(void) {
    const size_t indices[] = {3, 4, (size_t)-1};
    for (int i = 0; i < 3; i++)
        for (enum call call = SIZE; call <= PACKED; call++)
            refuses(call, (struct input){.file = &book, .index = indices[i], .length = 8 * 56},
                    HAYRO_JBIG2_NO_SUCH_PAGE);
}

/* Each call on a file, with no file, another one's, and one whose page has no end. */
static void refuses_faulty_files(void) {
    struct bytes unended = {.length = 0};
    append(&unended, "\x97JB2\r\n\x1A\n\1\0\0\0\1", 13);
    append(&unended, page.at, page.length);
    struct bytes pageless = {.length = 13};
    memcpy(pageless.at, unended.at, 13);
    for (enum call call = COUNT; call <= PACKED; call++) {
        refuses(call, (struct input){.file = &none}, HAYRO_JBIG2_PARSE_UNEXPECTED_EOF);
        refuses(call, (struct input){.file = &page}, HAYRO_JBIG2_FORMAT_INVALID_HEADER);
        refuses(call, (struct input){.file = &unended, .strict = true}, HAYRO_JBIG2_FORMAT_INVALID_END_OF_PAGE);
        refuses(call, (struct input){.file = &pageless, .strict = true}, HAYRO_JBIG2_FORMAT_PAGE_COUNT_MISMATCH);
    }
    CHECK(made(COUNT, &(struct input){.file = &unended}) == HAYRO_JBIG2_OK && told_count == 1);
    CHECK(made(COUNT, &(struct input){.file = &pageless}) == HAYRO_JBIG2_OK && told_count == 0);
    refuses(SIZE, (struct input){.file = &pageless}, HAYRO_JBIG2_NO_SUCH_PAGE);
}

static void refuses_faulty_streams(void) {
    const struct bytes wide = with_byte(&page, 12, 1), empty = with_byte(&page, 14, 0);
    struct bytes cut = page, foreign = page;
    append(&cut, "\0\0\0\1\x26", 5);
    append(&foreign, "\0\0\0\1\x3E\0\1\0\0\0\4\x80\0\0\0", 15);
    struct input in = {.globals = &none, .length = 8};
    for (enum call call = EMBEDDED_SIZE; call <= EMBEDDED_PACKED; call++) {
        in.length = call == EMBEDDED_IMAGE ? 8 : 1;
        in.strict = false;
        in.stream = &none;
        refuses(call, in, HAYRO_JBIG2_FORMAT_MISSING_PAGE_INFO);
        in.stream = &wide;
        refuses(call, in, HAYRO_JBIG2_OVERFLOW_BITMAP_DIMENSION);
        in.stream = &empty;
        refuses(call, in, HAYRO_JBIG2_FORMAT_EMPTY_PAGE);
        in.stream = &cut;
        CHECK(made(call, &in) == HAYRO_JBIG2_OK && !is_kept());
        in.strict = true;
        refuses(call, in, HAYRO_JBIG2_PARSE_UNEXPECTED_EOF);
        in.stream = &foreign;
        if (call != EMBEDDED_SIZE)
            refuses(call, in, HAYRO_JBIG2_UNSUPPORTED);
    }
}

static void refuses_faulty_globals(void) {
    struct bytes faulty = {.length = 0};
    append(&faulty, "\0\0\0\2\0\x20\2", 7);
    refuses(EMBEDDED_IMAGE, (struct input){.globals = &faulty, .stream = &page, .length = 8},
            HAYRO_JBIG2_SEGMENT_INVALID_REFERENCE);
    refuses(EMBEDDED_PACKED, (struct input){.globals = &faulty, .stream = &page, .length = 1},
            HAYRO_JBIG2_SEGMENT_INVALID_REFERENCE);
}

/* Each request of each call, refused in turn. */
static void tells_want_of_memory(void) {
    struct input in = {.file = &book, .globals = &globals, .stream = &taken};
    for (enum call call = COUNT; call < CALLS; call++) {
        in.length = call == IMAGE ? 64 * 56 : call == PACKED ? 8 * 56 : call == EMBEDDED_IMAGE ? 8 : 1;
        unsigned long refusals = 0;
        for (;;) {
            requests = 0;
            refused_request = refusals + 1;
            uint32_t answer = made(call, &in);
            refused_request = 0;
            CHECK(held == 0);
            if (answer == HAYRO_JBIG2_OK)
                break;
            CHECK(answer == HAYRO_JBIG2_OUT_OF_MEMORY && is_kept());
            refusals++;
        }
        CHECK(refusals > 0 && requests == refusals);
    }
}

static void has_texts(void) {
    CHECK(strcmp(hayro_jbig2_error_text(HAYRO_JBIG2_OK), "no error") == 0);
    CHECK(strcmp(hayro_jbig2_error_text(HAYRO_JBIG2_NO_SUCH_PAGE), "no such page") == 0);
    CHECK(strcmp(hayro_jbig2_error_text(HAYRO_JBIG2_WORK_LIMIT), "the limit of work is reached") == 0);
    for (uint32_t answer = 0; answer <= HAYRO_JBIG2_OUT_OF_MEMORY; answer++)
        CHECK(hayro_jbig2_error_text(answer) != NULL && hayro_jbig2_error_text(answer) != hayro_jbig2_error_text(99));
    CHECK(hayro_jbig2_error_text(42) == hayro_jbig2_error_text(99));
    CHECK(hayro_jbig2_error_text(UINT32_MAX) == hayro_jbig2_error_text(99));
    CHECK(strcmp(hayro_jbig2_version(), HAYRO_JBIG2_VERSION) == 0);
}

int main(int count, char **words) {
    if (count != 3)
        return 2;
    read_file(words[1], &page);
    read_file(words[2], &book);
    page_with_globals(&page, &globals, &taken);
    held = 0;

    draws_the_pages_of_a_file(false);
    draws_the_pages_of_a_file(true);
    const struct bytes black = with_byte(&page, 27, 4), nine = with_byte(&page, 14, 9);
    draws(&none, &page, 8, 0x00);
    draws(&none, &black, 8, 0xFF);
    draws(&none, &nine, 9, 0x0000);
    draws(&globals, &taken, 8, 0x80);
    refuses_other_sizes();
    refuses_other_pages();
    refuses_faulty_files();
    refuses_faulty_streams();
    refuses_faulty_globals();
    tells_want_of_memory();
    has_texts();
    printf("%u checks of calls from C, %u failed\n", checks, failures);
    return failures > 0;
}

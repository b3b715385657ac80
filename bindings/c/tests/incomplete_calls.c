/* Draws pages that are cut off, that refer to what isn't there, or whose faults are forgiven, leniently and in salvage: what
 * the library counts.
 * usage: incomplete_calls PAGE FILE, which are page.jb2 and t88-h1.jb2 of crates/jbig2_decode/data. */
#include "checks.h"

enum { LENIENT, SALVAGE, READINGS };
enum { CUT = HAYRO_JBIG2_PARSE_UNEXPECTED_EOF, LACK = HAYRO_JBIG2_SEGMENT_INVALID_REFERENCE };

/* A region of one black pixel on page 1. */
#define REGION(number) \
    "\0\0\0" number "\x26\0\1\0\0\0\x1A\0\0\0\1\0\0\0\1\0\0\0\0\0\0\0\0\0\0\x03\xFF\xFD\xFF\x02\xFE\xFE\xFE"
enum { REGION_LENGTH = 37 };

static struct bytes page, book, shared, text;
static const hayro_jbig2_passed_over complete;

static uint32_t read_page(int reading, hayro_jbig2_globals *globals, const struct bytes *bytes, size_t length,
                          hayro_jbig2_page **made) {
    return reading == SALVAGE ? hayro_jbig2_page_new_salvaged(NULL, globals, bytes->at, length, made)
                              : hayro_jbig2_page_new(NULL, false, globals, bytes->at, length, made);
}

static bool is_same(hayro_jbig2_passed_over found, hayro_jbig2_passed_over meant) {
    return found.count == meant.count && found.segment == meant.segment && found.error == meant.error;
}

/* What a page says before it is drawn: the last segment that it counts, if its list ends early. */
static void check_left_out(hayro_jbig2_page *read, hayro_jbig2_passed_over meant) {
    hayro_jbig2_left_out found = {9, 9, 9, 9, 9, 9, 9};
    bool is_cut = meant.error == CUT;
    CHECK(hayro_jbig2_page_get_left_out(read, &found) == HAYRO_JBIG2_OK);
    CHECK(found.list_segment == (is_cut ? meant.segment : 0));
    CHECK(found.list_error == (is_cut ? CUT : HAYRO_JBIG2_OK));
    CHECK(found.segments == 0 && found.segment == 0 && found.error == 0);
    CHECK(found.pages == 0 && found.page_error == 0);
}

/* Draws the first bytes of a page of one row with globals or NULL. Strict reading refuses what is incomplete. */
static void draws(const struct bytes *globals, const struct bytes *bytes, size_t length, uint8_t row,
                  hayro_jbig2_passed_over meant) {
    hayro_jbig2_context *context = NULL;
    CHECK(hayro_jbig2_context_new(NULL, &context) == HAYRO_JBIG2_OK);
    for (int reading = LENIENT; reading < READINGS; reading++) {
        hayro_jbig2_globals *made = NULL;
        hayro_jbig2_page *read = NULL, *strictly = NULL;
        hayro_jbig2_passed_over found = {9, 9, 9};
        uint8_t drawn = 9;
        if (globals != NULL)
            CHECK(hayro_jbig2_globals_new(NULL, false, globals->at, globals->length, &made) == HAYRO_JBIG2_OK);
        CHECK(read_page(reading, made, bytes, length, &read) == HAYRO_JBIG2_OK);
        check_left_out(read, meant);
        CHECK(hayro_jbig2_page_draw(read, context) == HAYRO_JBIG2_OK);
        CHECK(hayro_jbig2_context_rows(context, 0, &drawn, 1) == HAYRO_JBIG2_OK && drawn == row);
        CHECK(hayro_jbig2_context_get_passed_over(context, &found) == HAYRO_JBIG2_OK && is_same(found, meant));
        uint32_t answer = hayro_jbig2_page_new(NULL, true, made, bytes->at, length, &strictly);
        if (answer == HAYRO_JBIG2_OK)
            answer = hayro_jbig2_page_draw(strictly, context);
        CHECK((answer == HAYRO_JBIG2_OK) == (meant.count == 0));
        hayro_jbig2_page_free(strictly);
        hayro_jbig2_page_free(read);
        hayro_jbig2_globals_free(made);
    }
    hayro_jbig2_context_free(context);
}

static void tells_of_cuts(void) {
    struct bytes bytes = page;
    append(&bytes, REGION("\2") REGION("\3") REGION("\4") REGION("\5"), 4 * REGION_LENGTH);
    const size_t length = bytes.length;
    draws(NULL, &bytes, length, 0x80, complete);
    draws(NULL, &bytes, length / 3, 0x00, (hayro_jbig2_passed_over){1, 2, CUT});
    draws(NULL, &bytes, length / 2, 0x80, (hayro_jbig2_passed_over){1, 3, CUT});
    draws(NULL, &bytes, length - 1, 0x80, (hayro_jbig2_passed_over){1, 5, CUT});
    /* Within the number of segment 3, and after it. */
    const size_t start = length - 3 * REGION_LENGTH;
    draws(NULL, &bytes, start, 0x80, complete);
    for (size_t more = 1; more < 4; more++)
        draws(NULL, &bytes, start + more, 0x80, (hayro_jbig2_passed_over){1, HAYRO_JBIG2_NO_SEGMENT_NUMBER, CUT});
    draws(NULL, &bytes, start + 4, 0x80, (hayro_jbig2_passed_over){1, 3, CUT});
}

/* The symbol of the text region, number 2, is in globals. */
static void tells_of_what_is_not_there(void) {
    struct bytes other = page;
    draws(&shared, &text, text.length, 0x80, complete);
    draws(NULL, &text, text.length, 0x00, (hayro_jbig2_passed_over){1, 2, HAYRO_JBIG2_HUFFMAN_INVALID_CODE});
    /* It refers to number 0 besides, which is no dictionary. */
    append(&other, "\0\0\0\2\6\x40\0\1", 8);
    append(&other, text.at + page.length + 7, text.length - page.length - 7);
    draws(&shared, &other, other.length, 0x80, (hayro_jbig2_passed_over){1, 2, LACK});
}

/* A region of the page's size; a halftone region of one cell, number 2, by MMR, and its three patterns, number 1. */
#define AREA "\0\0\0\x08\0\0\0\1\0\0\0\0\0\0\0\0\0"
#define PATTERNS "\0\0\0\1\x10\0\1\0\0\0\7\0\1\1\0\0\0\2"
#define CELL "\0\0\0\2\x16\x20\1\1\0\0\0\x29" AREA "\1\0\0\0\1\0\0\0\1\0\0\0\0\0\0\0\0\0\0\0\0"
#define FORGIVEN(segments) segments, sizeof segments - 1

/* What strict reading refuses, and lenient reading draws or skips. */
static void tells_of_what_is_forgiven(void) {
    static const struct {
        const char *segments;
        size_t length;
        uint8_t row;
        hayro_jbig2_passed_over meant;
    } cases[] = {
        /* MMR data, of a region and of an intermediate one. */
        {FORGIVEN("\0\0\0\1\x26\0\1\0\0\0\x13" AREA "\1\x26"), 0, {1, 1, HAYRO_JBIG2_REGION_INVALID_MMR_DATA}},
        {FORGIVEN("\0\0\0\1\x24\0\1\0\0\0\x13" AREA "\1\x26"), 0, {1, 1, HAYRO_JBIG2_REGION_INVALID_MMR_DATA}},
        /* A gray value without a pattern. */
        {FORGIVEN(PATTERNS CELL "\x26\xA8\x80"), 0x80, {1, 2, HAYRO_JBIG2_REGION_GRAY_SCALE_OUT_OF_RANGE}},
        /* An id without a symbol. */
        {FORGIVEN("\0\0\0\2\6\0\1\0\0\0\x1B" AREA "\0\x10\0\0\0\1\xA9\x43\xFF\xAC"),
         0,
         {1, 2, HAYRO_JBIG2_SYMBOL_OUT_OF_RANGE}},
        /* An extension that must be understood, a type that is not listed, and an intermediate refinement of no region. */
        {FORGIVEN("\0\0\0\1\x3E\0\1\0\0\0\4\x80\0\0\0"), 0, {1, 1, HAYRO_JBIG2_UNSUPPORTED}},
        {FORGIVEN("\0\0\0\1\x3F\0\1\0\0\0\0"), 0, {1, 1, HAYRO_JBIG2_SEGMENT_UNKNOWN_TYPE}},
        {FORGIVEN("\0\0\0\1\x28\0\1\0\0\0\x12" AREA "\1"), 0, {1, 1, LACK}},
    };
    for (size_t i = 0; i < sizeof cases / sizeof *cases; i++) {
        struct bytes bytes = page;
        append(&bytes, cases[i].segments, cases[i].length);
        draws(NULL, &bytes, bytes.length, cases[i].row, cases[i].meant);
        /* It counts once, before a region that is drawn. */
        append(&bytes, REGION("\x08"), REGION_LENGTH);
        draws(NULL, &bytes, bytes.length, cases[i].row | 0x80, cases[i].meant);
    }
}

/* A dictionary of globals that refers to number 0, which isn't there; it is cut off; another one is cut off after it. */
static void tells_of_globals(void) {
    static const struct {
        bool has_first;
        size_t rest; /* bytes of the second one */
        hayro_jbig2_left_out meant;
    } cases[] = {
        {true, 0, {.segments = 1, .segment = 1, .error = LACK}},
        {false, 0, {.list_segment = 1, .list_error = CUT}},
        {true, 3, {1, 1, LACK, 0, 0, HAYRO_JBIG2_NO_SEGMENT_NUMBER, CUT}},
        {true, 4, {1, 1, LACK, 0, 0, 2, CUT}},
    };
    struct bytes bytes = {.length = 0};
    append(&bytes, "\0\0\0\1\0\x20\0", 7);
    append(&bytes, shared.at + 6, shared.length - 6);
    const size_t first = bytes.length;
    append(&bytes, "\0\0\0\2", 4);
    for (size_t i = 0; i < sizeof cases / sizeof *cases; i++) {
        const hayro_jbig2_left_out meant = cases[i].meant;
        hayro_jbig2_globals *made = NULL;
        hayro_jbig2_left_out found = {9, 9, 9, 9, 9, 9, 9};
        const size_t length = cases[i].has_first ? first + cases[i].rest : first - 1;
        CHECK(hayro_jbig2_globals_new(NULL, false, bytes.at, length, &made) == HAYRO_JBIG2_OK);
        CHECK(hayro_jbig2_globals_get_left_out(made, &found) == HAYRO_JBIG2_OK);
        CHECK(found.segments == meant.segments && found.segment == meant.segment && found.error == meant.error);
        CHECK(found.list_segment == meant.list_segment && found.list_error == meant.list_error);
        CHECK(found.pages == 0 && found.page_error == 0);
        hayro_jbig2_globals_free(made);
    }
}

/* The place of the end of a page in the file. */
static size_t end_of_page(uint8_t number) {
    const uint8_t meant[] = {0x31, 0, number, 0, 0, 0, 0};
    for (size_t i = 0; i + sizeof meant <= book.length; i++)
        if (memcmp(book.at + i, meant, sizeof meant) == 0)
            return i;
    return 0;
}

/* The first page of a file is complete, since its end is there; the second one isn't. */
static void tells_which_page_is_cut_off(void) {
    const size_t length = end_of_page(2) - 5;
    for (int reading = LENIENT; reading < READINGS; reading++) {
        hayro_jbig2_file *file = NULL;
        hayro_jbig2_context *context = NULL;
        hayro_jbig2_left_out left_out = {9, 9, 9, 9, 9, 9, 9};
        hayro_jbig2_passed_over found[2] = {{9, 9, 9}, {9, 9, 9}};
        uint32_t answer = reading == SALVAGE
                              ? hayro_jbig2_file_new_salvaged(NULL, HAYRO_JBIG2_NO_WORK_LIMIT, book.at, length, &file)
                              : hayro_jbig2_file_new(NULL, false, book.at, length, &file);
        CHECK(answer == HAYRO_JBIG2_OK && hayro_jbig2_file_page_count(file) == 2);
        CHECK(hayro_jbig2_file_get_left_out(file, &left_out) == HAYRO_JBIG2_OK);
        CHECK(left_out.segments == 0 && left_out.segment == 0 && left_out.error == 0 && left_out.list_error == CUT);
        CHECK(hayro_jbig2_context_new(NULL, &context) == HAYRO_JBIG2_OK);
        for (size_t i = 0; i < 2; i++) {
            CHECK(hayro_jbig2_file_draw(file, i, context) == HAYRO_JBIG2_OK);
            CHECK(hayro_jbig2_context_get_passed_over(context, &found[i]) == HAYRO_JBIG2_OK);
        }
        CHECK(is_same(found[0], complete));
        CHECK(is_same(found[1], (hayro_jbig2_passed_over){1, left_out.list_segment, CUT}));
        hayro_jbig2_context_free(context);
        hayro_jbig2_file_free(file);
    }
}

int main(int count, char **words) {
    if (count != 3)
        return 2;
    read_file(words[1], &page);
    read_file(words[2], &book);
    page_with_globals(&page, &shared, &text);
    tells_of_cuts();
    tells_of_what_is_not_there();
    tells_of_what_is_forgiven();
    tells_of_globals();
    tells_which_page_is_cut_off();
    printf("%u checks of incomplete pages from C, %u failed\n", checks, failures);
    return failures > 0;
}

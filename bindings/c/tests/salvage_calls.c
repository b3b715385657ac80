/* Reads damaged pages, globals and files in salvage, by handles. usage: salvage_calls PAGE FILE, which are page.jb2 and
 * t88-h1.jb2 of crates/jbig2_decode/data. The pages are those of the rows R17 of crates/jbig2_rows/README.md. */
#include "checks.h"
#include "counted.h"
#include "digits.h"

/* As in handle_calls.c. */
#ifndef FEWEST_REFUSALS
#define FEWEST_REFUSALS 20
#endif

/* The pieces of the rows, as digits. */
#define PAGE_OF(number, width, height) "00000000 30 00 " number "00000013" width height "0000000000000000000000"
#define PAGE PAGE_OF("01", "00000008", "00000001")
#define REGION(number, y) "000000" number "26 00 01 0000001A 00000001 00000001 00000000" y "00 00 03FFFDFF02FEFEFE"
#define SYMBOLS(number, page, flags) "000000" number "00 00" page "0000000F" flags "00000001 00000001 5F80800040"
/* Number 1, which refers to number 0, of no type. */
#define LACKING_SYMBOLS "00000001 00 20 00 00 0000000F 0001 00000001 00000001 5F80800040"
#define TEXT(number, refers) \
    "000000" number "06 20" refers "01 0000002D 00000008 00000001 00000000 00000000 00 0011 0000 00000001 01" \
    "0000000000000000000000000000000000 0004"
/* A region of unknown length, number 2, that lacks the marker at its end. */
#define WITHOUT_END "00000002 26 00 01 FFFFFFFF 00000008 00000001 00000000 00000000 00 00 03FFFDFF02FEFEFE"
#define JUNK "20202020202020202020202020202020"
#define FILE_HEADER "974A42320D0A1A0A"
#define OPEN_HEIGHT "FFFFFFFF"
/* The number of the segment that the junk begins, and what a list lacks that ends early at a segment. */
enum { SPACES = 0x20202020 };
#define ENDED(number, why) \
    { .list_segment = number, .list_error = why }

static bool is_same(const hayro_jbig2_left_out *found, const hayro_jbig2_left_out *meant) {
    return found->segments == meant->segments && found->segment == meant->segment && found->error == meant->error &&
           found->pages == meant->pages && found->page_error == meant->page_error &&
           found->list_segment == meant->list_segment && found->list_error == meant->list_error;
}

static const hayro_jbig2_left_out nothing;

/* A page of a row of 8 pixels, or of two. */
struct drawn {
    uint32_t height;
    uint8_t rows[2];
    hayro_jbig2_passed_over passed;
    hayro_jbig2_left_out left_out;
};

/* A row of one black pixel and seven white ones, and a white row. */
#define DOT .height = 1, .rows = {0x80}
#define WHITE .height = 1, .rows = {0x00}

/* Draws a page in salvage and compares it. Lenient reading refuses the error that ends its list, but for a cut. */
static void draws(hayro_jbig2_globals *globals, const char *digits, struct drawn meant) {
    const struct bytes stream = of(digits);
    hayro_jbig2_page *page = NULL, *lenient = NULL;
    hayro_jbig2_context *context = NULL;
    hayro_jbig2_page_info info = {9, 9, 9};
    hayro_jbig2_passed_over passed = {9, 9, 9};
    hayro_jbig2_left_out left_out = {9, 9, 9, 9, 9, 9, 9};
    uint8_t rows[2] = {0, 0};
    CHECK(hayro_jbig2_page_new_salvaged(NULL, globals, stream.at, stream.length, &page) == HAYRO_JBIG2_OK);
    CHECK(hayro_jbig2_context_new(NULL, &context) == HAYRO_JBIG2_OK);
    CHECK(hayro_jbig2_page_get_info(page, &info) == HAYRO_JBIG2_OK);
    CHECK(info.number == 1 && info.width == 8 && info.height == meant.height);
    CHECK(hayro_jbig2_page_get_left_out(page, &left_out) == HAYRO_JBIG2_OK && is_same(&left_out, &meant.left_out));
    CHECK(hayro_jbig2_page_draw(page, context) == HAYRO_JBIG2_OK);
    CHECK(hayro_jbig2_context_rows(context, 0, rows, meant.height) == HAYRO_JBIG2_OK);
    CHECK(memcmp(rows, meant.rows, 2) == 0);
    CHECK(hayro_jbig2_context_get_passed_over(context, &passed) == HAYRO_JBIG2_OK);
    CHECK(passed.count == meant.passed.count && passed.segment == meant.passed.segment);
    CHECK(passed.error == meant.passed.error);
    uint32_t answer = hayro_jbig2_page_new(NULL, false, globals, stream.at, stream.length, &lenient);
    bool is_cut = meant.left_out.list_error == HAYRO_JBIG2_PARSE_UNEXPECTED_EOF;
    uint32_t refused = is_cut ? HAYRO_JBIG2_OK : meant.left_out.list_error;
    CHECK(answer == refused || answer == HAYRO_JBIG2_FORMAT_UNKNOWN_PAGE_HEIGHT);
    hayro_jbig2_page_free(lenient);
    hayro_jbig2_page_free(page);
    hayro_jbig2_context_free(context);
}

/* A page counts the segment at which its list ends. */
static void ends_lists_early(void) {
    const uint32_t reference = HAYRO_JBIG2_SEGMENT_INVALID_REFERENCE, marker = HAYRO_JBIG2_SEGMENT_MISSING_END_MARKER;
    const uint32_t cut = HAYRO_JBIG2_PARSE_UNEXPECTED_EOF;
    draws(NULL, PAGE REGION("01", "00000000") JUNK,
          (struct drawn){DOT, .passed = {1, SPACES, reference}, .left_out = ENDED(SPACES, reference)});
    draws(NULL, PAGE REGION("01", "00000000") WITHOUT_END,
          (struct drawn){DOT, .passed = {1, 2, marker}, .left_out = ENDED(2, marker)});
    draws(NULL, PAGE REGION("01", "00000000") "00000002 26",
          (struct drawn){DOT, .passed = {1, 2, cut}, .left_out = ENDED(2, cut)});
}

/* A dictionary that wants a table which isn't there, beside a region that needs it or another one. */
static void passes_over_dictionaries(void) {
    const uint32_t why = HAYRO_JBIG2_HUFFMAN_INVALID_SELECTION;
    draws(NULL, PAGE SYMBOLS("01", "01", "0009") REGION("02", "00000000"), (struct drawn){DOT, .passed = {1, 1, why}});
    draws(NULL, PAGE SYMBOLS("01", "01", "0009") TEXT("02", "01"), (struct drawn){WHITE, .passed = {2, 1, why}});
    draws(NULL, PAGE SYMBOLS("01", "01", "0009") SYMBOLS("01", "01", "0001") TEXT("02", "01"),
          (struct drawn){DOT, .passed = {1, 1, why}});
}

static void takes_heights_from_regions(void) {
    draws(NULL, PAGE_OF("01", "00000008", OPEN_HEIGHT) REGION("01", "00000000"), (struct drawn){DOT});
    draws(NULL, PAGE_OF("01", "00000008", OPEN_HEIGHT) REGION("01", "00000001"),
          (struct drawn){.height = 2, .rows = {0x00, 0x80}});
    const struct bytes bare = of(PAGE_OF("01", "00000008", OPEN_HEIGHT));
    hayro_jbig2_page *page = NULL;
    CHECK(hayro_jbig2_page_new_salvaged(NULL, NULL, bare.at, bare.length, &page) ==
          HAYRO_JBIG2_FORMAT_UNKNOWN_PAGE_HEIGHT);
    CHECK(hayro_jbig2_page_new_salvaged(NULL, NULL, bare.at, 0, &page) == HAYRO_JBIG2_FORMAT_MISSING_PAGE_INFO);
    CHECK(page == NULL);
}

/* Globals that lenient reading refuses, with a page that needs what is left of them. */
static void keeps_of_globals_what_it_can(const char *digits, uint32_t refused, hayro_jbig2_left_out meant,
                                         const char *stream) {
    const struct bytes bytes = of(digits);
    hayro_jbig2_globals *globals = NULL, *other = NULL;
    hayro_jbig2_left_out left_out = {9, 9, 9, 9, 9, 9, 9};
    CHECK(hayro_jbig2_globals_new(NULL, false, bytes.at, bytes.length, &globals) == refused && globals == NULL);
    CHECK(hayro_jbig2_globals_new_salvaged(NULL, HAYRO_JBIG2_NO_WORK_LIMIT, bytes.at, bytes.length, &globals) ==
          HAYRO_JBIG2_OK);
    CHECK(hayro_jbig2_globals_get_left_out(globals, &left_out) == HAYRO_JBIG2_OK && is_same(&left_out, &meant));
    CHECK(hayro_jbig2_globals_share(NULL, globals, &other) == HAYRO_JBIG2_OK);
    hayro_jbig2_globals_free(globals);
    CHECK(hayro_jbig2_globals_get_left_out(other, &left_out) == HAYRO_JBIG2_OK && is_same(&left_out, &meant));
    draws(other, stream, (struct drawn){DOT});
    hayro_jbig2_globals_free(other);
}

static void keeps_of_globals(void) {
    const uint32_t selection = HAYRO_JBIG2_HUFFMAN_INVALID_SELECTION;
    const uint32_t reference = HAYRO_JBIG2_SEGMENT_INVALID_REFERENCE;
    keeps_of_globals_what_it_can(SYMBOLS("01", "01", "0009") SYMBOLS("02", "01", "0001"), selection,
                                 (hayro_jbig2_left_out){.segments = 1, .segment = 1, .error = selection},
                                 PAGE TEXT("03", "02"));
    keeps_of_globals_what_it_can(SYMBOLS("01", "01", "0009") SYMBOLS("02", "01", "0001") JUNK, reference,
                                 (hayro_jbig2_left_out){1, 1, selection, 0, 0, SPACES, reference},
                                 PAGE TEXT("03", "02"));
    keeps_of_globals_what_it_can(SYMBOLS("01", "01", "0001") JUNK, reference,
                                 (hayro_jbig2_left_out)ENDED(SPACES, reference), PAGE TEXT("02", "01"));
    keeps_of_globals_what_it_can(JUNK, reference, (hayro_jbig2_left_out)ENDED(SPACES, reference),
                                 PAGE REGION("01", "00000000"));
    /* A dictionary that lacks something, and a list that ends with the same error, at its number too. */
    keeps_of_globals_what_it_can(LACKING_SYMBOLS JUNK, reference,
                                 (hayro_jbig2_left_out){1, 1, reference, 0, 0, SPACES, reference},
                                 PAGE TEXT("02", "01"));
    keeps_of_globals_what_it_can(LACKING_SYMBOLS "00000001 00 20 01 00 00000000", reference,
                                 (hayro_jbig2_left_out){1, 1, reference, 0, 0, 1, reference}, PAGE TEXT("02", "01"));
}

/* Files of white pages of 8 by 1. */
static void reads_file(const char *digits, size_t pages, hayro_jbig2_left_out meant) {
    const struct bytes bytes = of(digits);
    hayro_jbig2_file *file = NULL;
    hayro_jbig2_context *context = NULL;
    hayro_jbig2_left_out left_out = {9, 9, 9, 9, 9, 9, 9};
    uint8_t row = 9;
    CHECK(hayro_jbig2_file_new_salvaged(NULL, HAYRO_JBIG2_NO_WORK_LIMIT, bytes.at, bytes.length, &file) ==
          HAYRO_JBIG2_OK);
    CHECK(hayro_jbig2_file_page_count(file) == pages);
    CHECK(hayro_jbig2_file_get_left_out(file, &left_out) == HAYRO_JBIG2_OK && is_same(&left_out, &meant));
    CHECK(hayro_jbig2_context_new(NULL, &context) == HAYRO_JBIG2_OK);
    for (size_t index = 0; index < pages; index++) {
        CHECK(hayro_jbig2_file_draw(file, index, context) == HAYRO_JBIG2_OK);
        CHECK(hayro_jbig2_context_rows(context, 0, &row, 1) == HAYRO_JBIG2_OK && row == 0x00);
    }
    hayro_jbig2_context_free(context);
    hayro_jbig2_file_free(file);
}

/* Files of a page whose shared dictionary lacks something, or is too short, and whose list ends with the same error. The
 * first says how many pages it has, and the last has random access. */
static void tells_two_faults_of_one_kind(void) {
    const uint32_t reference = HAYRO_JBIG2_SEGMENT_INVALID_REFERENCE, cut = HAYRO_JBIG2_PARSE_UNEXPECTED_EOF;
    const hayro_jbig2_left_out meant = {1, 1, reference, 0, 0, SPACES, reference};
    reads_file(FILE_HEADER "01 00000001" PAGE LACKING_SYMBOLS "00000002 31 00 01 00000000" JUNK, 1, meant);
    reads_file(FILE_HEADER "03" PAGE LACKING_SYMBOLS "00000002 31 00 01 00000000" JUNK, 1, meant);
    reads_file(FILE_HEADER "02 00000000 30 00 01 00000013 00000001 00 00 00 00000002 00000002 31 00 01 00000000"
                           "00000003 26 00 02 0000001A 00000004 33 00 00 00000000"
                           "00000008 00000001 0000000000000000000000 0001 0000",
               1, (hayro_jbig2_left_out){1, 1, cut, 0, 0, 3, cut});
}

static void reads_files(void) {
    const uint32_t selection = HAYRO_JBIG2_HUFFMAN_INVALID_SELECTION;
    const char *const end = "00000002 31 00 01 00000000";
    reads_file(FILE_HEADER "01 00000007" PAGE "00000001 31 00 02 00000000" PAGE_OF("03", "00000000", "00000001"), 1,
               (hayro_jbig2_left_out){.pages = 2, .page_error = HAYRO_JBIG2_FORMAT_EMPTY_PAGE});
    char digits[512];
    snprintf(digits, sizeof digits, "%s%s", FILE_HEADER "03" PAGE SYMBOLS("01", "00", "0009"), end);
    reads_file(digits, 1, (hayro_jbig2_left_out){.segments = 1, .segment = 1, .error = selection});
    reads_file(FILE_HEADER "01 00000001" PAGE JUNK, 1,
               (hayro_jbig2_left_out)ENDED(SPACES, HAYRO_JBIG2_SEGMENT_INVALID_REFERENCE));
    /* With random access: the data of page 2 aren't all there. */
    reads_file(FILE_HEADER "00 00000002 00000000 30 00 01 00000013 00000001 30 00 02 00000013"
                           "00000002 33 00 00 00000000 00000008 00000001 0000000000000000000000"
                           "00000008 00000001 00000000000000000000",
               1, (hayro_jbig2_left_out)ENDED(1, HAYRO_JBIG2_PARSE_UNEXPECTED_EOF));
}

static struct bytes page, book;

/* What lenient reading reads is read in the same way: a page with globals, and a file. */
static void reads_a_whole_page(void) {
    struct bytes bytes = {.length = 0}, stream = {.length = 0};
    hayro_jbig2_globals *globals = NULL;
    hayro_jbig2_page *read = NULL;
    hayro_jbig2_context *context = NULL;
    hayro_jbig2_left_out left_out = {9, 9, 9, 9, 9, 9, 9};
    uint8_t row = 9;
    page_with_globals(&page, &bytes, &stream);
    CHECK(hayro_jbig2_globals_new_salvaged(NULL, HAYRO_JBIG2_NO_WORK_LIMIT, bytes.at, bytes.length, &globals) ==
          HAYRO_JBIG2_OK);
    CHECK(hayro_jbig2_globals_get_left_out(globals, &left_out) == HAYRO_JBIG2_OK && is_same(&left_out, &nothing));
    CHECK(hayro_jbig2_page_new_salvaged(NULL, globals, stream.at, stream.length, &read) == HAYRO_JBIG2_OK);
    CHECK(hayro_jbig2_context_new(NULL, &context) == HAYRO_JBIG2_OK);
    CHECK(hayro_jbig2_page_draw(read, context) == HAYRO_JBIG2_OK);
    CHECK(hayro_jbig2_context_rows(context, 0, &row, 1) == HAYRO_JBIG2_OK && row == 0x80);
    hayro_jbig2_context_free(context);
    hayro_jbig2_page_free(read);
    hayro_jbig2_globals_free(globals);
}

static void reads_whole_files(void) {
    static const uint64_t *const pictures[] = {both_pages, both_pages, third_page};
    hayro_jbig2_file *file = NULL;
    hayro_jbig2_context *context = NULL;
    hayro_jbig2_left_out left_out = {9, 9, 9, 9, 9, 9, 9};
    hayro_jbig2_passed_over passed = {9, 9, 9};
    CHECK(hayro_jbig2_file_new_salvaged(NULL, HAYRO_JBIG2_NO_WORK_LIMIT, book.at, book.length, &file) ==
          HAYRO_JBIG2_OK);
    CHECK(hayro_jbig2_file_get_left_out(file, &left_out) == HAYRO_JBIG2_OK && is_same(&left_out, &nothing));
    CHECK(hayro_jbig2_context_new(NULL, &context) == HAYRO_JBIG2_OK);
    CHECK(hayro_jbig2_file_page_count(file) == 3);
    for (size_t index = 0; index < 3; index++) {
        unsigned row_bytes = index < 2 ? 8 : 5, height = index < 2 ? 56 : 8;
        uint8_t rows[8 * 56];
        CHECK(hayro_jbig2_file_draw(file, index, context) == HAYRO_JBIG2_OK);
        CHECK(hayro_jbig2_context_rows(context, 0, rows, row_bytes * height) == HAYRO_JBIG2_OK);
        for (unsigned i = 0; i < row_bytes * height; i++)
            CHECK(rows[i] == (pictures[index][i / row_bytes] >> (8 * (row_bytes - 1 - i % row_bytes)) & 0xFF));
        CHECK(hayro_jbig2_context_get_passed_over(context, &passed) == HAYRO_JBIG2_OK && passed.count == 0);
    }
    hayro_jbig2_context_free(context);
    hayro_jbig2_file_free(file);
    file = NULL;
    CHECK(hayro_jbig2_file_new_salvaged(NULL, HAYRO_JBIG2_NO_WORK_LIMIT, page.at, page.length, &file) ==
          HAYRO_JBIG2_FORMAT_INVALID_HEADER);
    CHECK(file == NULL);
}

/* Other readings report nothing here, and no call reports it of another handle. */
static void tells_of_its_own_handles(void) {
    hayro_jbig2_globals *globals = NULL;
    hayro_jbig2_page *read = NULL, *none = NULL;
    hayro_jbig2_file *file = NULL;
    hayro_jbig2_left_out left_out = {9, 9, 9, 9, 9, 9, 9}, before = left_out;
    CHECK(hayro_jbig2_globals_new(NULL, false, page.at, 0, &globals) == HAYRO_JBIG2_OK);
    CHECK(hayro_jbig2_page_new(NULL, false, NULL, page.at, page.length, &read) == HAYRO_JBIG2_OK);
    CHECK(hayro_jbig2_file_new(NULL, true, book.at, book.length, &file) == HAYRO_JBIG2_OK);
    void *a_globals = globals, *a_page = read, *a_file = file;
    CHECK(hayro_jbig2_globals_get_left_out(a_page, &left_out) == HAYRO_JBIG2_OTHER_HANDLE);
    CHECK(hayro_jbig2_page_get_left_out(a_file, &left_out) == HAYRO_JBIG2_OTHER_HANDLE);
    CHECK(hayro_jbig2_file_get_left_out(a_globals, &left_out) == HAYRO_JBIG2_OTHER_HANDLE);
    CHECK(hayro_jbig2_page_new_salvaged(NULL, a_file, page.at, page.length, &none) == HAYRO_JBIG2_OTHER_HANDLE);
    CHECK(none == NULL && is_same(&left_out, &before));
    CHECK(hayro_jbig2_globals_get_left_out(globals, &left_out) == HAYRO_JBIG2_OK && is_same(&left_out, &nothing));
    left_out = before;
    CHECK(hayro_jbig2_page_get_left_out(read, &left_out) == HAYRO_JBIG2_OK && is_same(&left_out, &nothing));
    left_out = before;
    CHECK(hayro_jbig2_file_get_left_out(file, &left_out) == HAYRO_JBIG2_OK && is_same(&left_out, &nothing));
    hayro_jbig2_globals_free(globals);
    hayro_jbig2_page_free(read);
    hayro_jbig2_file_free(file);
}

/* Damaged globals, a damaged page and a damaged file, from nothing; the first answer that is not HAYRO_JBIG2_OK ends
 * it. */
static uint32_t reads_all(const hayro_jbig2_memory *memory, uint64_t work) {
    const struct bytes shared = of(SYMBOLS("01", "01", "0009") SYMBOLS("02", "01", "0001") JUNK);
    const struct bytes stream = of(PAGE SYMBOLS("01", "01", "0009") TEXT("03", "02") JUNK);
    const struct bytes bytes = of(FILE_HEADER "01 00000001" PAGE SYMBOLS("01", "00", "0009") JUNK);
    hayro_jbig2_globals *globals = NULL;
    hayro_jbig2_page *read = NULL;
    hayro_jbig2_file *file = NULL;
    hayro_jbig2_context *context = NULL;
    uint32_t answer = hayro_jbig2_globals_new_salvaged(memory, work, shared.at, shared.length, &globals);
    if (answer == HAYRO_JBIG2_OK)
        answer = hayro_jbig2_page_new_salvaged(memory, globals, stream.at, stream.length, &read);
    if (answer == HAYRO_JBIG2_OK)
        answer = hayro_jbig2_file_new_salvaged(memory, work, bytes.at, bytes.length, &file);
    if (answer == HAYRO_JBIG2_OK)
        answer = hayro_jbig2_context_new(memory, &context);
    if (answer == HAYRO_JBIG2_OK)
        answer = hayro_jbig2_context_set_work_limit(context, work);
    if (answer == HAYRO_JBIG2_OK)
        answer = hayro_jbig2_page_draw(read, context);
    uint8_t row = 9;
    if (answer == HAYRO_JBIG2_OK)
        CHECK(hayro_jbig2_context_rows(context, 0, &row, 1) == HAYRO_JBIG2_OK && row == 0x80);
    hayro_jbig2_globals_free(globals);
    hayro_jbig2_page_free(read);
    hayro_jbig2_file_free(file);
    hayro_jbig2_context_free(context);
    return answer;
}

/* No want of memory or of work is passed over. */
static void tells_want_of_memory(void) {
    unsigned long refusals = 0;
    for (;;) {
        struct counted counted = {.refused_request = refusals + 1};
        const hayro_jbig2_memory memory = {take, give_back, &counted};
        uint32_t answer = reads_all(&memory, HAYRO_JBIG2_NO_WORK_LIMIT);
        CHECK(counted.blocks == 0 && counted.bytes == 0);
        if (answer == HAYRO_JBIG2_OK)
            break;
        CHECK(answer == HAYRO_JBIG2_OUT_OF_MEMORY);
        refusals++;
    }
    CHECK(refusals > FEWEST_REFUSALS);
    uint64_t work = 0;
    while (reads_all(NULL, work) == HAYRO_JBIG2_WORK_LIMIT && work < 1 << 20)
        work += 101;
    CHECK(work > 1024 && work < 1 << 20);
    CHECK(reads_all(NULL, work) == HAYRO_JBIG2_OK);
}

int main(int count, char **words) {
    if (count != 3)
        return 2;
    read_file(words[1], &page);
    read_file(words[2], &book);
    ends_lists_early();
    passes_over_dictionaries();
    takes_heights_from_regions();
    keeps_of_globals();
    reads_files();
    tells_two_faults_of_one_kind();
    reads_a_whole_page();
    reads_whole_files();
    tells_of_its_own_handles();
    tells_want_of_memory();
    printf("%u checks of salvage from C, %u failed\n", checks, failures);
    return failures > 0;
}

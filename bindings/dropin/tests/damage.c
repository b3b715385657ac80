/* Damaged streams, globals and files: what is drawn of them, and which messages the listener gets. */
#define _POSIX_C_SOURCE 200809L /* setenv */
#include "support.h"

#include <stdlib.h>
#include <string.h>

/* Segments of pages of 8 by 1: a page, a region with one black pixel, number 2, and a dictionary, number 1, that wants a
 * table which is not there. */
#define PAGE_OF(number, height) "\0\0\0\0\x30\0" number "\0\0\0\x13\0\0\0\x08" height "\0\0\0\0\0\0\0\0\0\0\0"
#define PAGE PAGE_OF("\1", "\0\0\0\1")
#define REGION "\0\0\0\2\x26\0\1\0\0\0\x1A\0\0\0\1\0\0\0\1\0\0\0\0\0\0\0\0\0\0\x03\xFF\xFD\xFF\x02\xFE\xFE\xFE"
#define BAD_SYMBOLS(page) "\0\0\0\1\0\0" page "\0\0\0\x0F\0\x09\0\0\0\1\0\0\0\1\x5F\x80\x80\0\x40"
/* Number 1, a dictionary of one black symbol that refers to number 0, which is none. It belongs to no page. */
#define LACKING_SYMBOLS "\0\0\0\1\0\x20\0\0\0\0\0\x0F\0\1\0\0\0\1\0\0\0\1\x5F\x80\x80\0\x40"
#define END_OF_PAGE "\0\0\0\3\x31\0\1\0\0\0\0"
/* Number 2, a dictionary of one black symbol, and number 3, a text region of one symbol. */
#define GOOD_SYMBOLS "\0\0\0\2\0\0\1\0\0\0\x0F\0\1\0\0\0\1\0\0\0\1\x5F\x80\x80\0\x40"
#define TEXT(references) \
    "\0\0\0\3\6" references "\1\0\0\0\x2D\0\0\0\x08\0\0\0\1\0\0\0\0\0\0\0\0\0\0\x11\0\0\0\0\0\1\1" \
    "\0\0\0\0\0\0\0\0\0\0\0\0\0\0\0\0\0\0\4"
/* A header that refers to its own number. */
#define JUNK "                "
enum { SPACES = 0x20202020 };
/* An extension whose page, and what it refers to, have four bytes; and regions of unknown length: in arithmetic coding, by
 * MMR, and without an end marker. */
#define LONG_FORMS "\0\1\0\1\x7E\xE0\0\0\1\0\0\0\0\2\0\0\0\1\0\0\0\4\0\0\0\0"
#define UNKNOWN_LENGTH(number) "\0\0\0" number "\x26\0\1\xFF\xFF\xFF\xFF\0\0\0\1\0\0\0\1\0\0\0\0\0\0\0\0\0"
#define TEMPLATE "\0\x03\xFF\xFD\xFF\x02\xFE\xFE\xFE"
#define UNKNOWN_ARITHMETIC UNKNOWN_LENGTH("\2") TEMPLATE "\xFF\xAC\0\0\0\1"
#define UNKNOWN_MMR UNKNOWN_LENGTH("\3") "\1\x80\0\0\0\0\0\1"
#define UNMARKED UNKNOWN_LENGTH("\5") TEMPLATE "\xFF\xAC\0\0\0"
/* An extension of unknown length, which strict reading refuses, and a segment of an unknown type. */
#define OPEN_EXTENSION "\0\0\0\3\x3E\0\1\xFF\xFF\xFF\xFF\0\0\0\1\0\0\0\1\0\0\0\0\0\0\0\0\0" TEMPLATE "\xFF\xAC\0\0\0\1"
#define UNKNOWN_TYPE(number) "\0\0\0" number "\x3F\0\1\0\0\0\0"
/* Number 1, a region by MMR whose data has a fault, and number 3, an extension that must be understood. */
#define MMR_FAULT "\0\0\0\1\x26\0\1\0\0\0\x13\0\0\0\x08\0\0\0\1\0\0\0\0\0\0\0\0\0\1\x26"
#define EXTENSION "\0\0\0\3\x3E\0\1\0\0\0\4\x80\0\0\0"
#define FILE_HEADER "\x97JB2\r\n\x1A\n"

/* The bytes of a literal without its end. */
#define BYTES(literal) (const uint8_t *)literal, sizeof literal - 1

static const char ended[] = "the rest of the segments is left out: " TEXT_OF_SEGMENT_INVALID_REFERENCE;
static const char passed[] = "a segment was passed over: " TEXT_OF_HUFFMAN_INVALID_SELECTION;

/* Draws a page of a row, or has it refused where `row` is -1; the last message is the warning `why`, of this segment. */
static void draws(bool is_file, const uint8_t *bytes, size_t length, int row, unsigned warnings, uint32_t segment,
                  const char *why) {
    struct counted memory = counted_allocator();
    struct heard heard = {0};
    struct context *context =
        is_file ? file_context(&memory.base, &heard) : embedded_context(&memory.base, NULL, &heard);
    CHECK(jbig2_data_in(context, bytes, length) == 0);
    CHECK(jbig2_complete_page(context) == (row < 0 ? -1 : 0));
    struct image *image = jbig2_page_out(context);
    CHECK((image != NULL) == (row >= 0));
    CHECK(image == NULL || (image->width == 8 && image->height == 1 && image->rows[0] == row));
    jbig2_release_page(context, image);
    CHECK(jbig2_page_out(context) == NULL);
    CHECK(heard.count[SEVERITY_WARNING] == warnings && heard.count[SEVERITY_FATAL] == (row < 0));
    CHECK(heard.segment == segment && strcmp(heard.text, why) == 0);
    jbig2_ctx_free(context);
    CHECK(memory.held == 0);
}

static void draws_what_is_left(void) {
    draws(false, BYTES(PAGE REGION JUNK), 0x80, 1, SPACES, ended);
    draws(false, BYTES(PAGE BAD_SYMBOLS("\1") REGION), 0x80, 1, 1, passed);
    draws(false, BYTES(PAGE BAD_SYMBOLS("\1") REGION JUNK), 0x80, 2, SPACES, ended);
    draws(false, BYTES(PAGE_OF("\1", "\xFF\xFF\xFF\xFF") REGION), 0x80, 0, 0, "");
    draws(true, BYTES(FILE_HEADER "\3" PAGE BAD_SYMBOLS("\0") REGION), 0x80, 1, 1, passed);
    draws(true, BYTES(FILE_HEADER "\3" PAGE REGION JUNK), 0x80, 1, SPACES, ended);
    draws(true, BYTES(FILE_HEADER "\3" PAGE REGION PAGE_OF("\2", "\0\0\0\0")), 0x80, 1, NO_SEGMENT,
          "a page is left out: " TEXT_OF_FORMAT_EMPTY_PAGE);
    draws(true, BYTES(FILE_HEADER "\3" PAGE REGION PAGE_OF("\2", "\0\0\0\0") PAGE_OF("\3", "\0\1\0\0")), 0x80, 1,
          NO_SEGMENT, "2 pages are left out, the first as follows: " TEXT_OF_FORMAT_EMPTY_PAGE);
    draws(true,
          BYTES(FILE_HEADER "\3"
                            "\0\0\0\0\x30\0\2\0\0\0\1\0" PAGE REGION),
          0x80, 1, NO_SEGMENT, "a page is left out: " TEXT_OF_PARSE_UNEXPECTED_EOF);
}

static const char cut[] = "a segment is left out: " TEXT_OF_PARSE_UNEXPECTED_EOF;
static const char unknown[] = "a segment was passed over: " TEXT_OF_SEGMENT_UNKNOWN_TYPE;
static const char unmarked[] = "the rest of the segments is left out: " TEXT_OF_SEGMENT_MISSING_END_MARKER;
static const char miscounted[] = "the rest of the segments is left out: " TEXT_OF_SEGMENT_INVALID_REFERRED_COUNT;

/* The number of a segment of another form is found after those of each form. */
static void tells_which_segment_is_left_out(void) {
    draws(false, BYTES(PAGE REGION "\0\0\0\7\x3F"), 0x80, 1, 7, cut);
    draws(false, BYTES(PAGE REGION "\0\0\0\7"), 0x80, 1, 7, cut);
    draws(false, BYTES(PAGE REGION "\0\0\0"), 0x80, 1, NO_SEGMENT, cut);
    draws(false, BYTES(PAGE REGION "\0\0\0\7\x26\0\1\0\0\0\1"), 0x80, 1, 7, cut);
    draws(true, BYTES(FILE_HEADER "\3" PAGE REGION "\0\0\0\7\x26\0\1\0\0\0\1"), 0x80, 1, 7, cut);
    draws(true, BYTES(FILE_HEADER "\1\0\0\0\1" PAGE REGION "\0\0\0\7\x3F"), 0x80, 1, 7, cut);
    /* Page associations, references and counts of four bytes. */
    draws(false, BYTES(PAGE REGION LONG_FORMS "\0\1\0\3\x3F"), 0x80, 1, 0x10003, cut);
    draws(false, BYTES(PAGE REGION LONG_FORMS "\0\0\0\7\x30\xA0"), 0x80, 1, 7, miscounted);
    draws(false, BYTES(PAGE REGION LONG_FORMS "\0\0\0\7\x30\xFF\xFF\xFF\xFF"), 0x80, 1, 7, cut);
    /* Unknown lengths, with MMR data and without. */
    draws(false, BYTES(PAGE UNKNOWN_ARITHMETIC "\0\0\0\7\x3F"), 0x80, 1, 7, cut);
    draws(false, BYTES(PAGE REGION UNKNOWN_MMR "\0\0\0\7\x3F"), 0x80, 1, 7, cut);
    draws(false, BYTES(PAGE REGION UNMARKED), 0x80, 1, 5, unmarked);
    draws(false, BYTES(PAGE REGION OPEN_EXTENSION), 0x80, 0, 0, "");
    draws(false, BYTES(PAGE REGION OPEN_EXTENSION UNKNOWN_TYPE("\6") PAGE_OF("\2", "\0\0\0\1")), 0x80, 1, 6, unknown);
    draws(true, BYTES(FILE_HEADER "\3" PAGE REGION UNKNOWN_TYPE("\6")), 0x80, 1, 6, unknown);
    draws(false, BYTES(PAGE REGION OPEN_EXTENSION "\0\0\0\7\x26\0\1\0\0\0\1"), 0x80, 1, 7, cut);
    /* One of an unknown type, and one that is cut off. */
    draws(false, BYTES(PAGE REGION UNKNOWN_TYPE("\6") "\0\0\0\7\x26\0\1\0\0\0\1"), 0x80, 2, 7, cut);
    /* A region that fails, and one that is cut off. */
    draws(false, BYTES(PAGE BAD_SYMBOLS("\1") REGION "\0\0\0\7\x26\0\1\0\0\0\1"), 0x80, 2, 7, cut);
}

/* A page of four equal regions, cut off at a third, at a half and before its last byte. */
static void tells_of_each_cut(void) {
    static const uint8_t page[] = PAGE REGION REGION REGION REGION;
    const size_t length = sizeof page - 1;
    draws(false, page, length, 0x80, 0, 0, "");
    draws(false, page, length / 3, 0x00, 1, 2, cut);
    draws(false, page, length / 2, 0x80, 1, 2, cut);
    draws(false, page, length - 1, 0x80, 1, 2, cut);
    /* Ghostscript hands in the end of a line after a stream; three bytes are more than that. */
    draws(false, BYTES(PAGE REGION "\n"), 0x80, 0, 0, "");
    draws(false, BYTES(PAGE REGION "\r\n"), 0x80, 0, 0, "");
    draws(false, BYTES(PAGE REGION "\r\r\n"), 0x80, 1, NO_SEGMENT, cut);
    draws(false, BYTES(PAGE REGION "\0\n"), 0x80, 1, NO_SEGMENT, cut);
}

/* A text region whose symbol is in globals that are not handed in; and one that refers to number 1 besides. */
static void tells_of_symbols_that_are_not_there(void) {
    static const char failed[] = "a segment was passed over: " TEXT_OF_HUFFMAN_INVALID_CODE;
    static const char lacking[] = "a segment was passed over: " TEXT_OF_SEGMENT_INVALID_REFERENCE;
    draws(false, BYTES(PAGE TEXT("\x20\1")), 0x00, 1, 3, failed);
    draws(false, BYTES(PAGE GOOD_SYMBOLS TEXT("\x20\2")), 0x80, 0, 0, "");
    draws(false, BYTES(PAGE GOOD_SYMBOLS TEXT("\x40\1\2")), 0x80, 1, 3, lacking);
}

/* Rows of MMR data after a fault are white, and an extension that must be understood is skipped. */
static void tells_of_what_is_forgiven(void) {
    static const char rows[] = "a segment was passed over: " TEXT_OF_REGION_INVALID_MMR_DATA;
    draws(false, BYTES(PAGE MMR_FAULT REGION), 0x80, 1, 1, rows);
    draws(true, BYTES(FILE_HEADER "\3" PAGE MMR_FAULT REGION END_OF_PAGE), 0x80, 1, 1, rows);
    draws(false, BYTES(PAGE REGION EXTENSION), 0x80, 1, 3, "a segment was passed over: " TEXT_OF_UNSUPPORTED);
    draws(false, BYTES(PAGE MMR_FAULT REGION EXTENSION), 0x80, 1, 1,
          "2 segments were passed over, this one first: " TEXT_OF_REGION_INVALID_MMR_DATA);
    setenv("HAYRO_JBIG2_READING", "lenient", 1);
    draws(false, BYTES(PAGE MMR_FAULT REGION), 0x80, 1, 1, rows);
    unsetenv("HAYRO_JBIG2_READING");
}

/* The first page of a file is complete, since its end is there; the second one isn't. */
static void tells_which_page_is_cut_off(void) {
    static const uint8_t file[] = FILE_HEADER
        "\3" PAGE REGION "\0\0\0\3\x31\0\1\0\0\0\0" PAGE_OF("\2", "\0\0\0\1") "\0\0\0\4\x26\0\2\0\0\0\x1A\0\0\0\1";
    struct counted memory = counted_allocator();
    struct heard heard = {0};
    struct context *context = file_context(&memory.base, &heard);
    CHECK(jbig2_data_in(context, file, sizeof file - 1) == 0 && jbig2_complete_page(context) == 0);
    /* Of the file. */
    CHECK(heard.count[SEVERITY_WARNING] == 1 && heard.segment == 4 && strcmp(heard.text, cut) == 0);
    struct image *image = jbig2_page_out(context);
    CHECK(image != NULL && image->rows[0] == 0x80 && heard.count[SEVERITY_WARNING] == 1);
    jbig2_release_page(context, image);
    image = jbig2_page_out(context);
    CHECK(image != NULL && image->rows[0] == 0x00);
    /* Of the page. */
    CHECK(heard.count[SEVERITY_WARNING] == 2 && heard.segment == 4);
    CHECK(strcmp(heard.text, "a segment was passed over: " TEXT_OF_PARSE_UNEXPECTED_EOF) == 0);
    jbig2_release_page(context, image);
    CHECK(jbig2_page_out(context) == NULL && heard.count[SEVERITY_FATAL] == 0);
    jbig2_ctx_free(context);
    CHECK(memory.held == 0);
}

/* The same by lenient reading, which the environment asks for; another word asks for nothing. */
static void reads_leniently_where_it_is_asked_to(void) {
    setenv("HAYRO_JBIG2_READING", "lenient", 1);
    draws(false, BYTES(PAGE REGION JUNK), -1, 0, NO_SEGMENT, "the page is refused: " TEXT_OF_SEGMENT_INVALID_REFERENCE);
    draws(false, BYTES(PAGE BAD_SYMBOLS("\1") REGION), -1, 0, NO_SEGMENT,
          "the page is refused: " TEXT_OF_HUFFMAN_INVALID_SELECTION);
    draws(true, BYTES(FILE_HEADER "\3" PAGE REGION JUNK), -1, 0, NO_SEGMENT,
          "the page is refused: " TEXT_OF_SEGMENT_INVALID_REFERENCE);
    setenv("HAYRO_JBIG2_READING", "any", 1);
    draws(false, BYTES(PAGE REGION JUNK), 0x80, 1, SPACES, ended);
    unsetenv("HAYRO_JBIG2_READING");
}

/* What pages share lacks something, and the list ends with the same error: there is a warning of each. */
static void tells_two_faults_of_one_kind(void) {
    draws(true, BYTES(FILE_HEADER "\3" PAGE LACKING_SYMBOLS REGION END_OF_PAGE JUNK), 0x80, 2, SPACES, ended);
    draws(true, BYTES(FILE_HEADER "\3" PAGE LACKING_SYMBOLS REGION JUNK), 0x80, 2, SPACES, ended);
    draws(true, BYTES(FILE_HEADER "\1\0\0\0\1" PAGE LACKING_SYMBOLS REGION END_OF_PAGE "\0\0\0\1\0\x20\1"), 0x80, 2, 1,
          ended);
    struct counted memory = counted_allocator();
    struct heard heard = {0};
    struct context *context = embedded_context(&memory.base, NULL, &heard);
    CHECK(jbig2_data_in(context, BYTES(LACKING_SYMBOLS JUNK)) == 0);
    struct globals *globals = jbig2_make_global_ctx(context);
    CHECK(heard.count[SEVERITY_WARNING] == 2 && heard.segment == SPACES && strcmp(heard.text, ended) == 0);
    jbig2_global_ctx_free(globals);
    CHECK(memory.held == 0);
}

/* The page of the tests with these globals in place of its own: it is drawn without what is missing, or refused. */
static void draws_with_bad_globals(const uint8_t *bytes, size_t length, const char *why, bool is_refused) {
    struct counted memory = counted_allocator();
    struct heard heard = {0};
    struct context *context = embedded_context(&memory.base, NULL, &heard);
    CHECK(jbig2_data_in(context, bytes, length) == 0);
    struct globals *globals = jbig2_make_global_ctx(context);
    CHECK(heard.count[SEVERITY_WARNING] == !is_refused && heard.count[SEVERITY_FATAL] == 0);
    CHECK(is_refused || strcmp(heard.text, why) == 0);
    context = embedded_context(&memory.base, globals, &heard);
    CHECK(jbig2_data_in(context, stream.at, stream.length) == 0);
    CHECK(jbig2_complete_page(context) == (is_refused ? -1 : 0));
    struct image *image = jbig2_page_out(context);
    CHECK((image == NULL) == is_refused && (image == NULL || !is_meant(image)));
    CHECK(heard.count[SEVERITY_FATAL] == is_refused);
    CHECK(!is_refused || strcmp(heard.text, why) == 0);
    jbig2_release_page(context, image);
    jbig2_global_ctx_free(globals);
    jbig2_ctx_free(context);
    CHECK(memory.held == 0);
}

/* A symbol dictionary that refers to a segment after it, and one that wants a table which is not there. */
static void tells_of_bad_globals(void) {
    draws_with_bad_globals(BYTES("\0\0\0\2\0\x20\2"), ended, false);
    draws_with_bad_globals(BYTES(BAD_SYMBOLS("\0")), passed, false);
    setenv("HAYRO_JBIG2_READING", "lenient", 1);
    draws_with_bad_globals(BYTES("\0\0\0\2\0\x20\2"),
                           "the page's globals are refused: " TEXT_OF_SEGMENT_INVALID_REFERENCE, true);
    unsetenv("HAYRO_JBIG2_READING");
}

/* Globals are a list of segments, whatever their context was made for. */
static void tells_of_cut_globals(bool of_file) {
    struct counted memory = counted_allocator();
    struct heard heard = {0};
    struct context *context =
        of_file ? file_context(&memory.base, &heard) : embedded_context(&memory.base, NULL, &heard);
    CHECK(jbig2_data_in(context, shared.at, shared.length - 1) == 0);
    struct globals *globals = jbig2_make_global_ctx(context);
    CHECK(heard.count[SEVERITY_WARNING] == 1 && strstr(heard.text, "a segment is left out") != NULL);
    jbig2_global_ctx_free(globals);
    CHECK(memory.held == 0);
}

void survives_damage(void) {
    draws_what_is_left();
    tells_which_segment_is_left_out();
    tells_of_each_cut();
    tells_of_symbols_that_are_not_there();
    tells_of_what_is_forgiven();
    tells_which_page_is_cut_off();
    reads_leniently_where_it_is_asked_to();
    tells_two_faults_of_one_kind();
    tells_of_bad_globals();
    tells_of_cut_globals(false);
    tells_of_cut_globals(true);
}

/* Draws regions whose data is cut off, in salvage and leniently, embedded and of a file, by handles (rules 4 and 6 of
 * docs/FORMAT.md, 12.7). usage: part_calls [WORD ..], which is what the other programs get. */
#include "checks.h"
#include "digits.h"

enum { CUT = HAYRO_JBIG2_PARSE_UNEXPECTED_EOF, HEIGHT = 4 };

#define FILE_HEADER "974A42320D0A1A0A 01 00000001"
#define PAGE_OF(height, flags) "00000000 30 00 01 00000013 00000008" height "0000000000000000" flags "0000"
#define ON_WHITE PAGE_OF("00000004", "00")
#define ON_BLACK PAGE_OF("00000004", "04")
/* Number 1: one symbol, a black pixel; the patterns white, black, black and white, each of one pixel; an intermediate
 * region that lies two columns to the right and one row down. */
#define SYMBOL "00000001 00 00 01 0000000F 0001 00000001 00000001 5F80800040"
#define PATTERNS "00000001 10 00 01 0000000A 00 01 01 00000003 0FFFAC"
#define REFERENCE "00000001 24 00 01 00000021 00000008 00000004 00000002 00000001 00 00 03FFFDFF02FEFEFE 352161B2BFFFAC"
/* Regions of 8 by 4 pixels that want more data than is there, up to their coded data. */
#define SIDES "00000008 00000004 00000000 00000000"
#define GENERIC "00000001 26 00 01 000000FF" SIDES "00 00 03FFFDFF02FEFEFE"
#define REPLACING "00000001 27 00 01 000000FF" SIDES "04 00 03FFFDFF02FEFEFE"
#define BY_MMR "00000001 26 00 01 000000FF" SIDES "04 01"
#define TEXT(flags) "00000002 06 20 01 01 00000021" SIDES "00" flags "00000008"
#define PREFIXED "00000002 07 20 01 01 00000036" SIDES "00 0011 0000 00000008 01" ZEROS ZEROS "00"
#define ZEROS "0000000000000000"
/* Refinements of the page, by the template 0 and with typical prediction, and of number 1, by the template 1. */
#define REFINING "00000001 2A 00 01 000000FF" SIDES "04 00 FFFFFFFF"
#define TYPICAL "00000001 2B 00 01 000000FF" SIDES "04 02 02FFFD01"
#define OF_REGION "00000002 2A 20 01 01 000000FF" SIDES "04 01"
/* Halftone regions whose cells are single pixels, of values of two planes; a grid with a column more on each side. */
#define HALFTONE(flags) "00000002 16 20 01 01 000000FF" SIDES "04" flags "00000008 00000004 00000000 00000000 01000000"
#define SKIPPING "00000002 17 20 01 01 000000FF" SIDES "04 4A 0000000A 00000004 FFFFFF00 00000000 01000000"
#define FIRST_PLANE "23A23A0412A492495A492549249280080080"

/* A page that ends in a region, with its coded data as far as it is there, and the rows that salvage shows; each row of
 * the page without it; and the region's number. */
struct part {
    const char *page, *data;
    uint8_t rows[HEIGHT], below;
    uint32_t segment;
};

static const struct part parts[] = {
    /* Of a generic region the whole rows, and nothing without its header. */
    {ON_WHITE GENERIC, "", {0x00, 0x00, 0x00, 0x00}, 0x00, 1},
    {ON_WHITE GENERIC, "BE3C", {0x00, 0x00, 0x00, 0x00}, 0x00, 1},
    {ON_WHITE GENERIC, "BE3C87", {0xA5, 0x00, 0x00, 0x00}, 0x00, 1},
    {ON_WHITE GENERIC, "BE3C8727", {0xA5, 0x3C, 0x00, 0x00}, 0x00, 1},
    /* A byte FF at the end says nothing without the byte after it. */
    {ON_WHITE GENERIC, "BE3C8727FF", {0xA5, 0x3C, 0x00, 0x00}, 0x00, 1},
    {ON_WHITE GENERIC, "BE3C8727FFAC", {0xA5, 0x3C, 0xCA, 0x56}, 0x00, 1},
    {ON_BLACK REPLACING, "BE3C87", {0xA5, 0xFF, 0xFF, 0xFF}, 0xFF, 1},
    {ON_BLACK "00000001 27 00 01 000000FF" SIDES, "04 00 03FFFDFF02FEFE", {0xFF, 0xFF, 0xFF, 0xFF}, 0xFF, 1},
    /* By MMR the rows before the fault, or before an early end of the block. */
    {ON_BLACK BY_MMR, "", {0xFF, 0xFF, 0xFF, 0xFF}, 0xFF, 1},
    {ON_BLACK BY_MMR, "9357", {0x00, 0xF0, 0xFF, 0xFF}, 0xFF, 1},
    {ON_BLACK BY_MMR, "9357E0", {0x00, 0xF0, 0xF0, 0xFF}, 0xFF, 1},
    {ON_BLACK BY_MMR, "9357E0020020", {0x00, 0xF0, 0xF0, 0xFF}, 0xFF, 1},
    {ON_BLACK BY_MMR, "26A88E8104", {0xFF, 0xFF, 0xFF, 0xFF}, 0xFF, 1},
    {ON_BLACK BY_MMR, "26A88E8104A31B08", {0xA5, 0x3C, 0xFF, 0xFF}, 0xFF, 1},
    {ON_BLACK BY_MMR, "26A88E8104A31B08EE825749600200", {0xA5, 0x3C, 0xCA, 0x56}, 0xFF, 1},
    /* Of a refinement the whole rows, and else what is refined: the page, or the other region, white beside it. */
    {ON_BLACK "00000001 2A 00 01 000000FF" SIDES, "04 00 FFFFFF", {0xFF, 0xFF, 0xFF, 0xFF}, 0xFF, 1},
    {ON_BLACK REFINING, "", {0xFF, 0xFF, 0xFF, 0xFF}, 0xFF, 1},
    {ON_BLACK REFINING, "B48D", {0xFF, 0xFF, 0xFF, 0xFF}, 0xFF, 1},
    {ON_BLACK REFINING, "B48D5E", {0xA5, 0xFF, 0xFF, 0xFF}, 0xFF, 1},
    {ON_BLACK REFINING, "B48D5ED43FFF", {0xA5, 0x3C, 0xCA, 0xFF}, 0xFF, 1},
    {ON_BLACK TYPICAL, "DFD6", {0xFF, 0xFF, 0xFF, 0xFF}, 0xFF, 1},
    {ON_BLACK TYPICAL, "DFD6F0F1", {0xA5, 0xFF, 0xFF, 0xFF}, 0xFF, 1},
    {ON_BLACK TYPICAL, "DFD6F0F149FF", {0xA5, 0x3C, 0xFF, 0xFF}, 0xFF, 1},
    {ON_BLACK REFERENCE OF_REGION, "", {0x00, 0x0F, 0x29, 0x26}, 0xFF, 2},
    {ON_BLACK REFERENCE OF_REGION, "C59D", {0x00, 0x0F, 0x29, 0x26}, 0xFF, 2},
    {ON_BLACK REFERENCE OF_REGION, "C59DF4", {0xA5, 0x0F, 0x29, 0x26}, 0xFF, 2},
    {ON_BLACK REFERENCE OF_REGION, "C59DF4A3FF", {0xA5, 0x3C, 0x29, 0x26}, 0xFF, 2},
    /* Of a halftone region the whole rows of the last plane, and else its initial colour. */
    {ON_BLACK PATTERNS "00000002 16 20 01 01 000000FF" SIDES, "04 40", {0xFF, 0xFF, 0xFF, 0xFF}, 0xFF, 2},
    {ON_BLACK PATTERNS HALFTONE("40"), "", {0x00, 0x00, 0x00, 0x00}, 0xFF, 2},
    {ON_BLACK PATTERNS HALFTONE("40"), "1C8954", {0x00, 0x00, 0x00, 0x00}, 0xFF, 2},
    {ON_BLACK PATTERNS HALFTONE("40"), "1C895433F5", {0x00, 0x00, 0x00, 0x00}, 0xFF, 2},
    {ON_BLACK PATTERNS HALFTONE("40"), "1C895433F5D55C", {0xA5, 0x00, 0x00, 0x00}, 0xFF, 2},
    {ON_BLACK PATTERNS HALFTONE("40"), "1C895433F5D55C9FFF", {0xA5, 0x3C, 0x00, 0x00}, 0xFF, 2},
    {ON_WHITE PATTERNS HALFTONE("C0"), "1C895433F5D55C9F", {0xA5, 0x3C, 0xFF, 0xFF}, 0x00, 2},
    {ON_BLACK PATTERNS SKIPPING, "1F4FD916122B", {0x00, 0x00, 0x00, 0x00}, 0xFF, 2},
    {ON_BLACK PATTERNS SKIPPING, "1F4FD916122B64FF", {0xA5, 0x00, 0x00, 0x00}, 0xFF, 2},
    {ON_BLACK PATTERNS SKIPPING, "1F4FD916122B64FF7FFF", {0xA5, 0x3C, 0xCA, 0x00}, 0xFF, 2},
    {ON_BLACK PATTERNS HALFTONE("41"), "23A23A0412A492495A4925", {0x00, 0x00, 0x00, 0x00}, 0xFF, 2},
    {ON_BLACK PATTERNS HALFTONE("41"), FIRST_PLANE, {0x00, 0x00, 0x00, 0x00}, 0xFF, 2},
    {ON_BLACK PATTERNS HALFTONE("41"), FIRST_PLANE "26A88E8104A31B08", {0xA5, 0x3C, 0x00, 0x00}, 0xFF, 2},
    {ON_BLACK PATTERNS HALFTONE("41"), FIRST_PLANE "26A88E8104A31B08EE825749600200", {0xA5, 0x3C, 0xCA, 0x56}, 0xFF, 2},
    /* One that fails draws nothing, and counts once: its place is too far, or what it refers to isn't there. */
    {ON_WHITE "00000001 2A 00 01 000000FF 00000008 00000004 FFFFFFFF 00000000", "04 01 B48D5E", {0}, 0x00, 1},
    {ON_BLACK HALFTONE("40"), "1C895433F5D55C", {0xFF, 0xFF, 0xFF, 0xFF}, 0xFF, 2},
    {ON_WHITE PREFIXED, "000864", {0x00, 0x00, 0x00, 0x00}, 0x00, 2},
    /* Of a text region the whole instances: two black pixels in each row. */
    {ON_WHITE SYMBOL TEXT("0010"), "A95A0E", {0x00, 0x00, 0x00, 0x00}, 0x00, 2},
    {ON_WHITE SYMBOL TEXT("0010"), "A95A0EC6", {0x81, 0x00, 0x00, 0x00}, 0x00, 2},
    {ON_WHITE SYMBOL TEXT("0010"), "A95A0EC664", {0x81, 0x00, 0x00, 0x00}, 0x00, 2},
    {ON_WHITE SYMBOL TEXT("0010"), "A95A0EC664D1", {0x81, 0x10, 0x00, 0x00}, 0x00, 2},
    {ON_WHITE SYMBOL TEXT("0010"), "A95A0EC664D129", {0x81, 0x14, 0x00, 0x00}, 0x00, 2},
    {ON_WHITE SYMBOL TEXT("0010"), "A95A0EC664D129E4", {0x81, 0x14, 0x40, 0x00}, 0x00, 2},
    {ON_WHITE SYMBOL TEXT("0010"), "A95A0EC664D129E4FF", {0x81, 0x14, 0x40, 0x00}, 0x00, 2},
    /* On black by Xor. */
    {ON_WHITE SYMBOL TEXT("0310"), "A95A0EC664D129", {0x7E, 0xEB, 0xFF, 0xFF}, 0x00, 2},
    {ON_WHITE SYMBOL PREFIXED, "0008", {0x80, 0x00, 0x00, 0x00}, 0x00, 2},
    {ON_WHITE SYMBOL PREFIXED, "000864", {0x81, 0x00, 0x00, 0x00}, 0x00, 2},
    {ON_WHITE SYMBOL PREFIXED, "0008640368", {0x81, 0x14, 0x00, 0x00}, 0x00, 2},
    {ON_WHITE SYMBOL PREFIXED, "0008640368AFC82401", {0x81, 0x14, 0x42, 0x00}, 0x00, 2},
};

/* The bytes of a part, with a file's header or without. */
static struct bytes bytes_of(const struct part *part, bool is_file) {
    struct bytes bytes = of(is_file ? FILE_HEADER : "");
    const struct bytes page = of(part->page), data = of(part->data);
    append(&bytes, page.at, page.length);
    append(&bytes, data.at, data.length);
    return bytes;
}

/* What is in a context after a page is drawn, which lacks a segment. */
static void check_drawn(hayro_jbig2_context *context, const uint8_t meant[HEIGHT], uint32_t segment) {
    uint8_t rows[HEIGHT] = {9, 9, 9, 9};
    hayro_jbig2_passed_over passed = {9, 9, 9};
    CHECK(hayro_jbig2_context_rows(context, 0, rows, HEIGHT) == HAYRO_JBIG2_OK);
    CHECK(memcmp(rows, meant, HEIGHT) == 0);
    CHECK(hayro_jbig2_context_get_passed_over(context, &passed) == HAYRO_JBIG2_OK);
    CHECK(passed.count == 1 && passed.segment == segment && passed.error == CUT);
}

static void check_left_out(hayro_jbig2_left_out found, uint32_t segment) {
    CHECK(found.list_segment == segment && found.list_error == CUT);
    CHECK(found.segments == 0 && found.segment == 0 && found.error == HAYRO_JBIG2_OK);
    CHECK(found.pages == 0 && found.page_error == HAYRO_JBIG2_OK);
}

static void draws_embedded(const struct part *part, hayro_jbig2_context *context, bool salvages, const uint8_t *meant) {
    const struct bytes bytes = bytes_of(part, false);
    hayro_jbig2_page *page = NULL;
    hayro_jbig2_left_out left_out = {9, 9, 9, 9, 9, 9, 9};
    uint32_t answer = salvages ? hayro_jbig2_page_new_salvaged(NULL, NULL, bytes.at, bytes.length, &page)
                               : hayro_jbig2_page_new(NULL, false, NULL, bytes.at, bytes.length, &page);
    CHECK(answer == HAYRO_JBIG2_OK);
    if (answer != HAYRO_JBIG2_OK)
        return;
    CHECK(hayro_jbig2_page_get_left_out(page, &left_out) == HAYRO_JBIG2_OK);
    check_left_out(left_out, part->segment);
    CHECK(hayro_jbig2_page_draw(page, context) == HAYRO_JBIG2_OK);
    check_drawn(context, meant, part->segment);
    hayro_jbig2_page_free(page);
}

static void draws_of_file(const struct part *part, hayro_jbig2_context *context, bool salvages, const uint8_t *meant) {
    const struct bytes bytes = bytes_of(part, true);
    const uint64_t work = HAYRO_JBIG2_NO_WORK_LIMIT;
    hayro_jbig2_file *file = NULL;
    uint32_t answer = salvages ? hayro_jbig2_file_new_salvaged(NULL, work, bytes.at, bytes.length, &file)
                               : hayro_jbig2_file_new(NULL, false, bytes.at, bytes.length, &file);
    CHECK(answer == HAYRO_JBIG2_OK);
    if (answer != HAYRO_JBIG2_OK)
        return;
    CHECK(hayro_jbig2_file_page_count(file) == 1);
    CHECK(hayro_jbig2_file_draw(file, 0, context) == HAYRO_JBIG2_OK);
    check_drawn(context, meant, part->segment);
    hayro_jbig2_file_free(file);
}

/* Pages of unknown height are as high as the region that is cut off, of which its information is enough; leniently they
 * are refused. */
static void takes_heights_from_parts(hayro_jbig2_context *context) {
    static const struct part open_parts[] = {
        {PAGE_OF("FFFFFFFF", "00") GENERIC, "BE3C87", {0xA5, 0, 0, 0}, 0, 1},
        {PAGE_OF("FFFFFFFF", "00") "00000001 2A 00 01 000000FF" SIDES, "04", {0, 0, 0, 0}, 0, 1},
    };
    for (size_t at = 0; at < sizeof open_parts / sizeof open_parts[0]; at++) {
        const struct part *part = &open_parts[at];
        const struct bytes bytes = bytes_of(part, false);
        hayro_jbig2_page *page = NULL;
        draws_embedded(part, context, true, part->rows);
        draws_of_file(part, context, true, part->rows);
        CHECK(hayro_jbig2_page_new(NULL, false, NULL, bytes.at, bytes.length, &page) ==
              HAYRO_JBIG2_FORMAT_UNKNOWN_PAGE_HEIGHT);
        CHECK(page == NULL);
    }
}

int main(void) {
    hayro_jbig2_context *context = NULL;
    CHECK(hayro_jbig2_context_new(NULL, &context) == HAYRO_JBIG2_OK);
    for (size_t at = 0; at < sizeof parts / sizeof parts[0]; at++) {
        const struct part *part = &parts[at];
        uint8_t below[HEIGHT];
        memset(below, part->below, HEIGHT);
        draws_embedded(part, context, true, part->rows);
        draws_embedded(part, context, false, below);
        draws_of_file(part, context, true, part->rows);
        draws_of_file(part, context, false, below);
    }
    takes_heights_from_parts(context);
    hayro_jbig2_context_free(context);
    printf("%u checks of regions that are cut off from C, %u failed\n", checks, failures);
    return failures > 0;
}

/* Lists the segments of a file by the calls on one segment. usage: segment_calls PAGE FILE, which are page.jb2 and t88-h1.jb2
 * of crates/jbig2_decode/data. */
#include "checks.h"
#include "counted.h"

/* What T.88 H.1 says of its segments, by their numbers: type, page, bytes of the header and of the data, and those that
 * each refers to. */
static const struct {
    uint32_t type, page;
    size_t header_length;
    uint64_t data_length;
    size_t references;
    uint32_t numbers[2];
} meant[] = {
    {0, 0, 11, 24, 0, {0}},  {48, 1, 11, 19, 0, {0}},  {0, 1, 11, 28, 0, {0}},    {7, 1, 13, 49, 2, {0, 2}},
    {39, 1, 11, 44, 0, {0}}, {16, 1, 11, 45, 0, {0}},  {23, 1, 12, 87, 1, {5}},   {49, 1, 11, 0, 0, {0}},
    {48, 2, 11, 19, 0, {0}}, {0, 2, 11, 27, 0, {0}},   {7, 2, 13, 31, 2, {0, 9}}, {39, 2, 11, 35, 0, {0}},
    {16, 2, 11, 28, 0, {0}}, {23, 2, 12, 62, 1, {12}}, {49, 2, 11, 0, 0, {0}},    {48, 3, 11, 19, 0, {0}},
    {0, 0, 11, 22, 0, {0}},  {0, 3, 12, 32, 1, {16}},  {7, 3, 12, 37, 1, {17}},   {49, 3, 11, 0, 0, {0}},
    {51, 0, 11, 0, 0, {0}},
};
enum { SEGMENTS = sizeof meant / sizeof meant[0], FILE_HEADER = 13 };

/* Lists the file, and returns the first answer that is not OK, after all was given back. */
static uint32_t lists(const struct bytes *file, const hayro_jbig2_memory *memory) {
    size_t place = FILE_HEADER;
    for (uint32_t number = 0; number < SEGMENTS; number++) {
        const uint8_t *bytes = file->at + place;
        size_t left = file->length - place, taken = 0;
        hayro_jbig2_segment_info info = {0};
        uint32_t numbers[2] = {0, 0};
        uint32_t answer = hayro_jbig2_segment_get_info(memory, true, bytes, left, &info);
        if (answer != HAYRO_JBIG2_OK)
            return answer;
        CHECK(info.number == number && info.segment_type == meant[number].type && info.page == meant[number].page);
        CHECK(info.header_length == meant[number].header_length && info.data_length == meant[number].data_length);
        CHECK(info.references == meant[number].references);
        answer = hayro_jbig2_segment_get_references(memory, true, bytes, left, numbers, info.references);
        if (answer != HAYRO_JBIG2_OK)
            return answer;
        CHECK(memcmp(numbers, meant[number].numbers, sizeof numbers) == 0);
        answer = hayro_jbig2_segment_get_length(memory, true, bytes, left, &taken);
        if (answer != HAYRO_JBIG2_OK)
            return answer;
        CHECK(taken == info.header_length + info.data_length);
        place += taken;
    }
    CHECK(place == file->length);
    return HAYRO_JBIG2_OK;
}

/* Each request for memory is refused in turn. */
static void lists_without_memory(const struct bytes *file) {
    uint32_t answer = HAYRO_JBIG2_OUT_OF_MEMORY;
    for (unsigned long refused = 1; answer != HAYRO_JBIG2_OK; refused++) {
        struct counted counted = {.refused_request = refused};
        const hayro_jbig2_memory memory = {take, give_back, &counted};
        answer = lists(file, &memory);
        CHECK(counted.blocks == 0);
        CHECK(answer == HAYRO_JBIG2_OK || answer == HAYRO_JBIG2_OUT_OF_MEMORY);
        CHECK((answer == HAYRO_JBIG2_OK) == (counted.requests < refused));
    }
}

/* Segment 3 refers to two others, and segment 4 is a generic region of 54 by 44 pixels at (4, 11). */
static void reads_a_region(const struct bytes *file) {
    enum { THIRD = FILE_HEADER + 35 + 30 + 39, FOURTH = THIRD + 62 };
    hayro_jbig2_segment_info info = {0};
    hayro_jbig2_region_info region = {9, 9, 9, 9, 9};
    uint32_t numbers[3] = {7, 7, 7};
    CHECK(hayro_jbig2_segment_get_references(NULL, true, file->at + THIRD, 62, numbers, 3) == HAYRO_JBIG2_OTHER_SIZE);
    CHECK(numbers[0] == 7 && numbers[1] == 7 && numbers[2] == 7);
    CHECK(hayro_jbig2_segment_get_info(NULL, true, file->at + FOURTH, 11, &info) == HAYRO_JBIG2_OK);
    CHECK(info.number == 4 && info.data_length == 44);
    CHECK(hayro_jbig2_region_get_info(file->at + FOURTH + 11, 16, &region) == HAYRO_JBIG2_PARSE_UNEXPECTED_EOF);
    CHECK(region.width == 9 && region.combination_operator == 9);
    CHECK(hayro_jbig2_region_get_info(file->at + FOURTH + 11, 44, &region) == HAYRO_JBIG2_OK);
    CHECK(region.width == 54 && region.height == 44 && region.x == 4 && region.y == 11);
    CHECK(region.combination_operator == 0);
}

/* Bytes that end early, a type that isn't listed, and a length that is unknown. */
static void refuses(void) {
    static const uint8_t unknown_type[] = {0, 0, 0, 1, 63, 0, 1, 0, 0, 0, 0};
    static const uint8_t unknown_length[] = {0, 0, 0, 1, 38, 0, 1, 255, 255, 255, 255, 0,   0, 0,   8,   0, 0, 0, 1,
                                             0, 0, 0, 0, 0,  0, 0, 0,   0,   6,   2,   255, 1, 255, 172, 0, 0, 0, 1};
    hayro_jbig2_segment_info info = {.number = 9};
    size_t taken = 9;
    for (size_t length = 0; length < sizeof unknown_type; length++)
        CHECK(hayro_jbig2_segment_get_info(NULL, false, unknown_type, length, &info) ==
              HAYRO_JBIG2_PARSE_UNEXPECTED_EOF);
    CHECK(info.number == 9);
    CHECK(hayro_jbig2_segment_get_info(NULL, true, unknown_type, sizeof unknown_type, &info) ==
          HAYRO_JBIG2_SEGMENT_UNKNOWN_TYPE);
    CHECK(hayro_jbig2_segment_get_info(NULL, false, unknown_type, sizeof unknown_type, &info) == HAYRO_JBIG2_OK);
    CHECK(info.number == 1 && info.segment_type == 64);
    CHECK(hayro_jbig2_segment_get_info(NULL, true, unknown_length, 11, &info) == HAYRO_JBIG2_OK);
    CHECK(info.data_length == HAYRO_JBIG2_UNKNOWN_LENGTH);
    CHECK(hayro_jbig2_segment_get_length(NULL, true, unknown_length, 11, &taken) == HAYRO_JBIG2_PARSE_UNEXPECTED_EOF);
    CHECK(taken == 9);
    CHECK(hayro_jbig2_segment_get_length(NULL, true, unknown_length, sizeof unknown_length, &taken) == HAYRO_JBIG2_OK);
    CHECK(taken == sizeof unknown_length);
}

/* A text region of row R9.2 that refers to a dictionary in the globals, after the information of a page. */
static void reads_a_stream(const struct bytes *page) {
    struct bytes globals = {.length = 0}, stream = {.length = 0};
    hayro_jbig2_segment_info info = {0};
    hayro_jbig2_region_info region = {9, 9, 9, 9, 9};
    uint32_t number = 0;
    size_t taken = 0;
    page_with_globals(page, &globals, &stream);
    CHECK(hayro_jbig2_segment_get_length(NULL, true, globals.at, globals.length, &taken) == HAYRO_JBIG2_OK);
    CHECK(taken == globals.length);
    CHECK(hayro_jbig2_segment_get_length(NULL, true, stream.at, stream.length, &taken) == HAYRO_JBIG2_OK);
    CHECK(taken == page->length);
    CHECK(hayro_jbig2_segment_get_info(NULL, true, stream.at + taken, stream.length - taken, &info) == HAYRO_JBIG2_OK);
    CHECK(info.number == 2 && info.segment_type == 6 && info.references == 1 && info.data_length == 45);
    CHECK(hayro_jbig2_segment_get_references(NULL, true, stream.at + taken, stream.length - taken, &number, 1) ==
          HAYRO_JBIG2_OK);
    CHECK(number == 1);
    taken += info.header_length;
    CHECK(hayro_jbig2_region_get_info(stream.at + taken, stream.length - taken, &region) == HAYRO_JBIG2_OK);
    CHECK(region.width == 8 && region.height == 1 && region.x == 0 && region.y == 0);
}

int main(int count, char **words) {
    static struct bytes page, file;
    if (count != 3) {
        fprintf(stderr, "usage: segment_calls PAGE FILE\n");
        return 2;
    }
    read_file(words[1], &page);
    read_file(words[2], &file);
    CHECK(lists(&file, NULL) == HAYRO_JBIG2_OK);
    reads_a_stream(&page);
    lists_without_memory(&file);
    reads_a_region(&file);
    refuses();
    printf("%u checks of calls on segments, %u failed\n", checks, failures);
    return failures == 0 ? 0 : 1;
}

/* Writes pages from C, and decodes them again. usage: written_calls [PAGE FILE], whose words are not read. */
#include "checks.h"
#include "counted.h"

enum { MOST = 1 << 14 };

/* Where the page is in a file, and in a page the resolution and the flags of the region. */
enum { FILE_HEADER = 13, RESOLUTION = 22, REGION_FLAGS = 64 };

static uint8_t rows[MOST], decoded[MOST], written_bytes[8 * MOST];
static uint32_t random_state = 1;

static uint8_t random_byte(void) {
    random_state = random_state * 1664525 + 1013904223;
    return (uint8_t)(random_state >> 24);
}

/* A row of runs, of up to 8000 pixels. */
static void fill_runs(uint8_t *row, size_t size) {
    uint8_t colour = 0;
    for (size_t i = 0, run; i < size; i += run, colour ^= 0xFF) {
        run = 1 + (size_t)random_byte() * random_byte() % 1000;
        run = run < size - i ? run : size - i;
        memset(row + i, colour, run);
        row[i] = random_byte();
    }
}

static size_t fill_long_rows(uint32_t width, uint32_t height) {
    size_t row_bytes = (width + 7) / 8;
    for (uint32_t y = 0; y < height; y++)
        fill_runs(rows + y * row_bytes, row_bytes);
    return row_bytes * height;
}

/* Rows of noise, of lines that repeat, or white ones, with ones past the width too. */
static size_t fill_rows(uint32_t width, uint32_t height, unsigned kind) {
    size_t row_bytes = (width + 7) / 8;
    for (uint32_t y = 0; y < height; y++)
        for (size_t i = 0; i < row_bytes; i++) {
            bool repeats = kind == 1 && y % 3 != 0;
            rows[y * row_bytes + i] = kind == 2 ? 0 : repeats ? rows[(y - 1) * row_bytes + i] : random_byte();
        }
    return row_bytes * height;
}

/* The bits past the width are 0 in what is decoded. */
static void clear_ends(uint32_t width, uint32_t height) {
    size_t row_bytes = (width + 7) / 8;
    for (uint32_t y = 0; width % 8 != 0 && y < height; y++)
        rows[(y + 1) * row_bytes - 1] &= (uint8_t)(0xFF << (8 - width % 8));
}

/* Copies what was written, and frees it. */
static size_t take_bytes(hayro_jbig2_written *written) {
    if (written == NULL)
        return 0;
    size_t length = hayro_jbig2_written_length(written);
    CHECK(length > 0 && length <= sizeof written_bytes);
    CHECK(hayro_jbig2_written_bytes(written, written_bytes, length - 1) == HAYRO_JBIG2_OTHER_SIZE);
    CHECK(hayro_jbig2_written_bytes(written, written_bytes, length) == HAYRO_JBIG2_OK);
    hayro_jbig2_written_free(written);
    return length;
}

/* MMR, or the template and typical prediction. */
static unsigned flags_of(const hayro_jbig2_write_settings *settings) {
    return settings->mmr ? 1 : settings->template_number << 1 | (settings->typical ? 8u : 0u);
}

static void rows_read_back(uint32_t width, uint32_t height, size_t size, const hayro_jbig2_write_settings *settings) {
    hayro_jbig2_written *written = NULL;
    uint32_t read_width = 0, read_height = 0;
    CHECK(hayro_jbig2_written_new(NULL, rows, size, width, height, settings, &written) == HAYRO_JBIG2_OK);
    size_t length = take_bytes(written);
    CHECK(written_bytes[REGION_FLAGS + (settings->whole_file ? FILE_HEADER : 0)] == flags_of(settings));
    memset(decoded, 0xA5, sizeof decoded);
    if (settings->whole_file) {
        CHECK(hayro_jbig2_page_size(true, written_bytes, length, 0, &read_width, &read_height) == HAYRO_JBIG2_OK);
        CHECK(hayro_jbig2_page_packed(true, written_bytes, length, 0, decoded, size) == HAYRO_JBIG2_OK);
    } else {
        CHECK(hayro_jbig2_embedded_size(true, written_bytes, length, &read_width, &read_height) == HAYRO_JBIG2_OK);
        CHECK(hayro_jbig2_embedded_packed(true, NULL, 0, written_bytes, length, decoded, size) == HAYRO_JBIG2_OK);
    }
    CHECK(read_width == width && read_height == height);
    clear_ends(width, height);
    CHECK(memcmp(decoded, rows, size) == 0);
}

static void reads_back(uint32_t width, uint32_t height, unsigned kind, const hayro_jbig2_write_settings *settings) {
    rows_read_back(width, height, fill_rows(width, height, kind), settings);
}

static const uint32_t sides[] = {1, 2, 7, 8, 9, 31, 32, 33, 63, 64, 65, 130};
enum { COUNT = sizeof sides / sizeof *sides };

static void reads_all_back(void) {
    for (unsigned i = 0; i < COUNT * COUNT * 16; i++) {
        hayro_jbig2_write_settings settings = {.template_number = i % 4, .typical = i / 4 % 2, .whole_file = i / 8 % 2};
        reads_back(sides[i / 16 % COUNT], sides[i / 16 / COUNT], i % 3, &settings);
    }
}

/* By MMR, for any number of a template and with typical prediction or without. */
static void reads_mmr_back(void) {
    for (unsigned i = 0; i < COUNT * COUNT * 6; i++) {
        hayro_jbig2_write_settings settings = {
            .template_number = i, .typical = i / 4 % 2, .whole_file = i / 3 % 2, .mmr = true};
        reads_back(sides[i / 6 % COUNT], sides[i / 6 / COUNT], i % 3, &settings);
    }
}

/* Runs have codes of their own from 64 and from 2560 pixels on. */
static void reads_long_runs_back(void) {
    static const uint32_t widths[] = {640, 2559, 2560, 2561, 5121, 20000, 65535};
    enum { HEIGHT = 2 };
    for (size_t i = 0; i < sizeof widths / sizeof *widths; i++) {
        hayro_jbig2_write_settings settings = {.whole_file = i % 2, .mmr = true};
        rows_read_back(widths[i], HEIGHT, fill_long_rows(widths[i], HEIGHT), &settings);
        reads_back(widths[i], HEIGHT, 0, &settings);
    }
}

static void states_the_resolution(void) {
    static const uint8_t numbers[] = {0x01, 0x02, 0x03, 0x04, 0xFF, 0xFE, 0xFD, 0xFC};
    for (int whole_file = 0; whole_file < 2; whole_file++) {
        const hayro_jbig2_write_settings settings = {
            .x_resolution = 0x01020304, .y_resolution = 0xFFFEFDFC, .whole_file = whole_file};
        hayro_jbig2_written *written = NULL;
        size_t count = 9;
        CHECK(hayro_jbig2_written_new(NULL, rows, 1, 8, 1, &settings, &written) == HAYRO_JBIG2_OK);
        size_t length = take_bytes(written);
        CHECK(memcmp(written_bytes + RESOLUTION + whole_file * FILE_HEADER, numbers, sizeof numbers) == 0);
        uint32_t answer = hayro_jbig2_page_count(true, written_bytes, length, &count);
        CHECK(whole_file ? answer == HAYRO_JBIG2_OK && count == 1 : answer == HAYRO_JBIG2_FORMAT_INVALID_HEADER);
    }
}

/* A letter, as another encoder writes it (crates/jbig2_writer_tests). `region` is its segment. */
static void writes_the_letter(const hayro_jbig2_write_settings *settings, const char *region, size_t size) {
    static const uint8_t letter[] = {0xF0, 0x88, 0x88, 0x88, 0xF0, 0x80, 0x80, 0x80};
    static const char information[] = "\0\0\0\0\x70\0\0\0\0\1\0\0\0\x13"
                                      "\0\0\0\5\0\0\0\x08\0\0\0\0\0\0\0\0\1\0\0";
    enum { START = sizeof information - 1 };
    hayro_jbig2_written *written = NULL;
    CHECK(hayro_jbig2_written_new(NULL, letter, sizeof letter, 5, 8, settings, &written) == HAYRO_JBIG2_OK);
    CHECK(take_bytes(written) == START + size);
    CHECK(memcmp(written_bytes, information, START) == 0 && memcmp(written_bytes + START, region, size) == 0);
}

/* By template 0 with typical prediction, and by MMR. */
static void writes_what_another_encoder_does(void) {
    static const char arithmetic[] = "\0\0\0\1\x66\0\0\0\0\1\0\0\0\x20"
                                     "\0\0\0\5\0\0\0\x08\0\0\0\0\0\0\0\0\0"
                                     "\x08\3\xFF\xFD\xFF\2\xFE\xFE\xFE\x08\x2E\4\xD7\xFF\xAC";
    static const char mmr[] = "\0\0\0\1\x66\0\0\0\0\1\0\0\0\x1D"
                              "\0\0\0\5\0\0\0\x08\0\0\0\0\0\0\0\0\0"
                              "\1\x26\xAF\4\xBF\xF0\x78\x2F\xE0\2\0\x20";
    writes_the_letter(&(hayro_jbig2_write_settings){.typical = true}, arithmetic, sizeof arithmetic - 1);
    writes_the_letter(&(hayro_jbig2_write_settings){.mmr = true}, mmr, sizeof mmr - 1);
}

static void refuses_faults(void) {
    const hayro_jbig2_write_settings settings = {.template_number = 0, .typical = true};
    const hayro_jbig2_write_settings other = {.template_number = 4, .typical = true};
    const hayro_jbig2_write_settings mmr = {.template_number = 4, .mmr = true};
    static const struct {
        uint32_t width, height;
        size_t length;
        uint32_t answer;
    } cases[] = {
        {8, 2, 1, HAYRO_JBIG2_OTHER_SIZE},
        {8, 2, 3, HAYRO_JBIG2_OTHER_SIZE},
        {9, 2, 2, HAYRO_JBIG2_OTHER_SIZE},
        {UINT32_MAX, UINT32_MAX, 16, HAYRO_JBIG2_OTHER_SIZE},
        {0, 0, 0, HAYRO_JBIG2_INVALID_SIDES},
        {0, 70000, 0, HAYRO_JBIG2_INVALID_SIDES},
        {8, 0, 0, HAYRO_JBIG2_INVALID_SIDES},
        {65536, 1, 8192, HAYRO_JBIG2_INVALID_SIDES},
        {1, 65536, 65536, HAYRO_JBIG2_INVALID_SIDES},
    };
    static uint8_t many[65536];
    hayro_jbig2_written *written = NULL;
    for (size_t i = 0; i < sizeof cases / sizeof *cases; i++) {
        uint32_t width = cases[i].width, height = cases[i].height;
        CHECK(hayro_jbig2_written_new(NULL, many, cases[i].length, width, height, &settings, &written) ==
              cases[i].answer);
        CHECK(hayro_jbig2_written_new(NULL, many, cases[i].length, width, height, &other, &written) ==
              HAYRO_JBIG2_NO_SUCH_TEMPLATE);
        CHECK(hayro_jbig2_written_new(NULL, many, cases[i].length, width, height, &mmr, &written) == cases[i].answer);
        CHECK(written == NULL);
    }
    hayro_jbig2_written_free(NULL);
}

/* A handle of another kind, as a caller in another language may pass. */
static void refuses_other_handles(void) {
    const hayro_jbig2_write_settings settings = {.template_number = 0, .typical = true};
    hayro_jbig2_written *written = NULL;
    hayro_jbig2_context *context = NULL;
    CHECK(hayro_jbig2_context_new(NULL, &context) == HAYRO_JBIG2_OK);
    CHECK(hayro_jbig2_written_length((hayro_jbig2_written *)context) == 0);
    CHECK(hayro_jbig2_written_bytes((hayro_jbig2_written *)context, rows, 0) == HAYRO_JBIG2_OTHER_HANDLE);
    hayro_jbig2_context_free(context);
    CHECK(hayro_jbig2_written_new(NULL, rows, 1, 8, 1, &settings, &written) == HAYRO_JBIG2_OK);
    CHECK(hayro_jbig2_context_rows((hayro_jbig2_context *)written, 0, rows, 0) == HAYRO_JBIG2_OTHER_HANDLE);
    CHECK(hayro_jbig2_page_get_info((hayro_jbig2_page *)written, &(hayro_jbig2_page_info){0, 0, 0}) ==
          HAYRO_JBIG2_OTHER_HANDLE);
    hayro_jbig2_written_free(written);
}

/* Each request for memory is refused in turn: out of memory, no handle, and no block that is left. */
static void survives_refusals(bool mmr) {
    const hayro_jbig2_write_settings settings = {.template_number = 2, .typical = true, .mmr = mmr};
    size_t size = fill_rows(130, 70, 0);
    for (unsigned long refused = 1;; refused++) {
        struct counted counted = {.refused_request = refused};
        const hayro_jbig2_memory memory = {take, give_back, &counted};
        hayro_jbig2_written *written = NULL;
        uint32_t answer = hayro_jbig2_written_new(&memory, rows, size, 130, 70, &settings, &written);
        CHECK((answer == HAYRO_JBIG2_OK) == (written != NULL));
        if (answer == HAYRO_JBIG2_OK) {
            take_bytes(written);
            CHECK(counted.blocks == 0 && counted.bytes == 0);
            /* The portable C makes few requests, of much each. */
            CHECK(refused > 2);
            return;
        }
        CHECK(answer == HAYRO_JBIG2_OUT_OF_MEMORY);
        CHECK(counted.blocks == 0 && counted.bytes == 0);
    }
}

/* What was written is in the caller's memory until it is freed. */
static void uses_the_callers_memory(void) {
    const hayro_jbig2_write_settings settings = {.template_number = 3, .typical = false};
    struct counted counted = {0};
    const hayro_jbig2_memory memory = {take, give_back, &counted};
    hayro_jbig2_written *written = NULL;
    size_t size = fill_rows(64, 64, 0);
    CHECK(hayro_jbig2_written_new(&memory, rows, size, 64, 64, &settings, &written) == HAYRO_JBIG2_OK);
    CHECK(counted.blocks > 1 && counted.bytes >= (long)hayro_jbig2_written_length(written));
    take_bytes(written);
    CHECK(counted.blocks == 0);
}

int main(void) {
    reads_all_back();
    reads_mmr_back();
    reads_long_runs_back();
    states_the_resolution();
    writes_what_another_encoder_does();
    refuses_faults();
    refuses_other_handles();
    survives_refusals(false);
    survives_refusals(true);
    uses_the_callers_memory();
    printf("%u checks of pages that are written from C, %u failed\n", checks, failures);
    return failures != 0;
}

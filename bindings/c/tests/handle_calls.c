/* Calls the library by handles, as a C program does. usage: handle_calls PAGE FILE, which are page.jb2 and t88-h1.jb2
 * of crates/jbig2_decode/data. */
#include "checks.h"
#include "counted.h"

#include <pthread.h>

/* How many requests for memory a trial makes at least. The library of bindings/portable/ makes fewer. */
#ifndef FEWEST_REFUSALS
#define FEWEST_REFUSALS 100
#endif

static struct bytes page, book, globals, taken, faulty;
static uint8_t rows[4096];

/* Whether nothing was written after the first bytes of the rows. */
static bool is_kept_after(size_t length) {
    for (size_t i = length; i < sizeof rows; i++)
        if (rows[i] != 0xA5)
            return false;
    return true;
}

static bool has_rows(const uint64_t *picture, unsigned row_bytes, unsigned height) {
    for (unsigned i = 0; i < row_bytes * height; i++)
        if (rows[i] != (picture[i / row_bytes] >> (8 * (row_bytes - 1 - i % row_bytes)) & 0xFF))
            return false;
    return true;
}

/* The pages of a file in any order, whole and in pieces. */
static void draws_files(const hayro_jbig2_memory *memory, bool strict) {
    static const size_t order[] = {2, 0, 1, 0};
    hayro_jbig2_file *file = NULL;
    hayro_jbig2_context *context = NULL;
    CHECK(hayro_jbig2_file_new(memory, strict, book.at, book.length, &file) == HAYRO_JBIG2_OK);
    CHECK(hayro_jbig2_context_new(memory, &context) == HAYRO_JBIG2_OK);
    CHECK(hayro_jbig2_file_page_count(file) == 3);
    hayro_jbig2_page_info infos[3];
    CHECK(hayro_jbig2_file_get_infos(file, infos, 3) == HAYRO_JBIG2_OK);
    CHECK(hayro_jbig2_file_get_infos(file, infos, 2) == HAYRO_JBIG2_OTHER_SIZE);
    for (int i = 0; i < 4; i++) {
        size_t index = order[i];
        hayro_jbig2_page_info info = {0, 0, 0};
        hayro_jbig2_passed_over passed = {1, 1, 1};
        CHECK(hayro_jbig2_file_get_info(file, index, &info) == HAYRO_JBIG2_OK && info.number == index + 1);
        CHECK(memcmp(&info, &infos[index], sizeof info) == 0);
        CHECK(info.width == (index < 2 ? 64 : 37) && info.height == (index < 2 ? 56 : 8));
        CHECK(hayro_jbig2_file_draw(file, index, context) == HAYRO_JBIG2_OK);
        unsigned row_bytes = (info.width + 7) / 8, size = row_bytes * info.height;
        for (size_t place = 0; place < size; place += row_bytes)
            CHECK(hayro_jbig2_context_rows(context, place, rows + place, row_bytes) == HAYRO_JBIG2_OK);
        CHECK(has_rows(index < 2 ? both_pages : third_page, row_bytes, info.height));
        memset(rows, 0xA5, sizeof rows);
        CHECK(hayro_jbig2_context_rows(context, 0, rows, size) == HAYRO_JBIG2_OK);
        CHECK(has_rows(index < 2 ? both_pages : third_page, row_bytes, info.height) && is_kept_after(size));
        CHECK(hayro_jbig2_context_rows(context, 0, rows, size + 1) == HAYRO_JBIG2_OTHER_SIZE);
        CHECK(hayro_jbig2_context_rows(context, size, rows, 0) == HAYRO_JBIG2_OK);
        CHECK(hayro_jbig2_context_rows(context, size, rows, 1) == HAYRO_JBIG2_OTHER_SIZE);
        CHECK(hayro_jbig2_context_rows(context, (size_t)-1, rows, 2) == HAYRO_JBIG2_OTHER_SIZE);
        CHECK(hayro_jbig2_context_get_passed_over(context, &passed) == HAYRO_JBIG2_OK);
        CHECK(passed.count == 0 && passed.segment == 0 && passed.error == 0);
    }
    hayro_jbig2_context_free(context);
    hayro_jbig2_file_free(file);
}

/* A page keeps what it needs: its stream and the handle of its globals go before it is drawn. */
static void draws_streams(const hayro_jbig2_memory *memory) {
    struct bytes stream = taken, shared_bytes = globals;
    hayro_jbig2_globals *shared = NULL, *other = NULL;
    hayro_jbig2_page *with = NULL, *alone = NULL;
    hayro_jbig2_context *context = NULL;
    hayro_jbig2_page_info info = {0, 0, 0};
    CHECK(hayro_jbig2_globals_new(memory, true, shared_bytes.at, shared_bytes.length, &shared) == HAYRO_JBIG2_OK);
    CHECK(hayro_jbig2_globals_share(memory, shared, &other) == HAYRO_JBIG2_OK);
    hayro_jbig2_globals_free(shared);
    CHECK(hayro_jbig2_page_new(memory, true, other, stream.at, stream.length, &with) == HAYRO_JBIG2_OK);
    hayro_jbig2_globals_free(other);
    memset(&stream, 0, sizeof stream);
    memset(&shared_bytes, 0, sizeof shared_bytes);
    CHECK(hayro_jbig2_page_get_info(with, &info) == HAYRO_JBIG2_OK);
    CHECK(info.number == 1 && info.width == 8 && info.height == 1);
    CHECK(hayro_jbig2_page_new(memory, true, NULL, page.at, page.length, &alone) == HAYRO_JBIG2_OK);
    CHECK(hayro_jbig2_context_new(memory, &context) == HAYRO_JBIG2_OK);
    CHECK(hayro_jbig2_context_rows(context, 0, rows, 1) == HAYRO_JBIG2_OTHER_SIZE);
    for (int i = 0; i < 3; i++) {
        CHECK(hayro_jbig2_page_draw(with, context) == HAYRO_JBIG2_OK);
        CHECK(hayro_jbig2_context_rows(context, 0, rows, 1) == HAYRO_JBIG2_OK && rows[0] == 0x80);
        CHECK(hayro_jbig2_page_draw(alone, context) == HAYRO_JBIG2_OK);
        CHECK(hayro_jbig2_context_rows(context, 0, rows, 1) == HAYRO_JBIG2_OK && rows[0] == 0x00);
    }
    hayro_jbig2_page_free(with);
    hayro_jbig2_page_free(alone);
    hayro_jbig2_context_free(context);
}

/* A region whose header is cut off: refused in strict reading, and else passed over. */
static void tells_what_it_passed_over(void) {
    for (int strict = 0; strict < 2; strict++) {
        hayro_jbig2_page *read = NULL;
        hayro_jbig2_context *context = NULL;
        hayro_jbig2_passed_over passed = {7, 7, 7};
        CHECK(hayro_jbig2_page_new(NULL, strict, NULL, faulty.at, faulty.length, &read) == HAYRO_JBIG2_OK);
        CHECK(hayro_jbig2_context_new(NULL, &context) == HAYRO_JBIG2_OK);
        uint32_t answer = hayro_jbig2_page_draw(read, context);
        CHECK(answer == (strict ? HAYRO_JBIG2_PARSE_UNEXPECTED_EOF : HAYRO_JBIG2_OK));
        CHECK(hayro_jbig2_context_get_passed_over(context, &passed) == HAYRO_JBIG2_OK);
        CHECK(passed.count == (strict ? 0 : 2) && passed.segment == (strict ? 0 : 5));
        CHECK(passed.error == (strict ? 0 : HAYRO_JBIG2_PARSE_UNEXPECTED_EOF));
        hayro_jbig2_page_free(read);
        hayro_jbig2_context_free(context);
    }
}

/* A page of a whole region that is coded by the arithmetic coder, template 3, or by MMR. */
static struct bytes with_region(bool by_mmr) {
    struct bytes stream = page;
    append(&stream, by_mmr ? "\0\0\0\2\x26\0\1\0\0\0\x14" : "\0\0\0\2\x26\0\1\0\0\0\x16", 11);
    append(&stream, "\0\0\0\x08\0\0\0\1\0\0\0\0\0\0\0\0\0", 17);
    append(&stream, by_mmr ? "\x01\x80\0" : "\x06\x02\xFF\0\0", by_mmr ? 3 : 5);
    return stream;
}

/* A context that has drawn a page draws a like one without asking for memory. */
static void draws_again_without_memory(void) {
    for (int by_mmr = 0; by_mmr < 2; by_mmr++) {
        struct bytes stream = with_region(by_mmr);
        struct counted counted = {0};
        const hayro_jbig2_memory memory = {take, give_back, &counted};
        hayro_jbig2_page *read = NULL;
        hayro_jbig2_context *context = NULL;
        CHECK(hayro_jbig2_page_new(NULL, false, NULL, stream.at, stream.length, &read) == HAYRO_JBIG2_OK);
        CHECK(hayro_jbig2_context_new(&memory, &context) == HAYRO_JBIG2_OK);
        CHECK(hayro_jbig2_page_draw(read, context) == HAYRO_JBIG2_OK);
        struct counted first = counted;
        for (int i = 0; i < 3; i++)
            CHECK(hayro_jbig2_page_draw(read, context) == HAYRO_JBIG2_OK);
        CHECK(counted.requests == first.requests && counted.bytes == first.bytes);
        hayro_jbig2_page_free(read);
        hayro_jbig2_context_free(context);
        CHECK(counted.blocks == 0);
    }
}

static void refuses_faults(void) {
    hayro_jbig2_globals *shared = NULL;
    hayro_jbig2_page *read = NULL;
    hayro_jbig2_file *file = NULL;
    CHECK(hayro_jbig2_globals_new(NULL, false, (const uint8_t *)"\0\0\0\2\0\x20\2", 7, &shared) ==
          HAYRO_JBIG2_SEGMENT_INVALID_REFERENCE);
    CHECK(hayro_jbig2_page_new(NULL, false, NULL, page.at, 0, &read) == HAYRO_JBIG2_FORMAT_MISSING_PAGE_INFO);
    CHECK(hayro_jbig2_file_new(NULL, false, page.at, page.length, &file) == HAYRO_JBIG2_FORMAT_INVALID_HEADER);
    CHECK(shared == NULL && read == NULL && file == NULL);
    hayro_jbig2_globals_free(NULL);
    hayro_jbig2_context_free(NULL);
    hayro_jbig2_page_free(NULL);
    hayro_jbig2_file_free(NULL);
}

/* Each call with a handle of another kind, which C's types hinder. */
static void refuses_other_handles(void) {
    hayro_jbig2_page *read = NULL, *none = NULL;
    hayro_jbig2_context *context = NULL;
    hayro_jbig2_globals *other = NULL;
    hayro_jbig2_page_info info = {9, 9, 9};
    hayro_jbig2_passed_over passed = {9, 9, 9};
    CHECK(hayro_jbig2_page_new(NULL, false, NULL, page.at, page.length, &read) == HAYRO_JBIG2_OK);
    CHECK(hayro_jbig2_context_new(NULL, &context) == HAYRO_JBIG2_OK);
    void *a_page = read, *a_context = context;
    CHECK(hayro_jbig2_globals_share(NULL, a_page, &other) == HAYRO_JBIG2_OTHER_HANDLE && other == NULL);
    CHECK(hayro_jbig2_page_new(NULL, false, a_page, page.at, page.length, &none) == HAYRO_JBIG2_OTHER_HANDLE);
    CHECK(hayro_jbig2_page_get_info(a_context, &info) == HAYRO_JBIG2_OTHER_HANDLE && info.width == 9);
    CHECK(hayro_jbig2_page_draw(a_context, a_page) == HAYRO_JBIG2_OTHER_HANDLE && none == NULL);
    CHECK(hayro_jbig2_file_page_count(a_page) == 0);
    CHECK(hayro_jbig2_file_get_info(a_page, 0, &info) == HAYRO_JBIG2_OTHER_HANDLE && info.number == 9);
    CHECK(hayro_jbig2_file_get_infos(a_page, &info, 0) == HAYRO_JBIG2_OTHER_HANDLE);
    CHECK(hayro_jbig2_file_get_infos(a_page, &info, 1) == HAYRO_JBIG2_OTHER_HANDLE && info.number == 9);
    CHECK(hayro_jbig2_file_draw(a_page, 0, context) == HAYRO_JBIG2_OTHER_HANDLE);
    CHECK(hayro_jbig2_context_rows(a_page, 0, rows, 0) == HAYRO_JBIG2_OTHER_HANDLE);
    CHECK(hayro_jbig2_context_get_passed_over(a_page, &passed) == HAYRO_JBIG2_OTHER_HANDLE && passed.count == 9);
    uint64_t left = 9;
    CHECK(hayro_jbig2_context_set_work_limit(a_page, 1) == HAYRO_JBIG2_OTHER_HANDLE);
    CHECK(hayro_jbig2_context_get_work_left(a_page, &left) == HAYRO_JBIG2_OTHER_HANDLE && left == 9);
    CHECK(hayro_jbig2_page_draw(read, context) == HAYRO_JBIG2_OK);
    hayro_jbig2_page_free(read);
    hayro_jbig2_context_free(context);
}

static void refuses_other_pages(void) {
    hayro_jbig2_file *file = NULL;
    hayro_jbig2_context *context = NULL;
    hayro_jbig2_page_info info = {9, 9, 9};
    CHECK(hayro_jbig2_file_new(NULL, false, book.at, book.length, &file) == HAYRO_JBIG2_OK);
    CHECK(hayro_jbig2_context_new(NULL, &context) == HAYRO_JBIG2_OK);
    CHECK(hayro_jbig2_file_get_info(file, 3, &info) == HAYRO_JBIG2_NO_SUCH_PAGE && info.height == 9);
    CHECK(hayro_jbig2_file_draw(file, (size_t)-1, context) == HAYRO_JBIG2_NO_SUCH_PAGE);
    hayro_jbig2_context_free(context);
    hayro_jbig2_file_free(file);
}

/* A file's page and an embedded page, from nothing; the first answer that is not HAYRO_JBIG2_OK ends it. */
static uint32_t draws_both(const hayro_jbig2_memory *memory) {
    hayro_jbig2_globals *shared = NULL, *other = NULL;
    hayro_jbig2_page *read = NULL;
    hayro_jbig2_file *file = NULL;
    hayro_jbig2_context *context = NULL;
    uint32_t answer = hayro_jbig2_globals_new(memory, false, globals.at, globals.length, &shared);
    if (answer == HAYRO_JBIG2_OK)
        answer = hayro_jbig2_globals_share(memory, shared, &other);
    if (answer == HAYRO_JBIG2_OK)
        answer = hayro_jbig2_page_new(memory, false, other, taken.at, taken.length, &read);
    if (answer == HAYRO_JBIG2_OK)
        answer = hayro_jbig2_file_new(memory, false, book.at, book.length, &file);
    if (answer == HAYRO_JBIG2_OK)
        answer = hayro_jbig2_context_new(memory, &context);
    if (answer == HAYRO_JBIG2_OK)
        answer = hayro_jbig2_page_draw(read, context);
    if (answer == HAYRO_JBIG2_OK) {
        CHECK(hayro_jbig2_context_rows(context, 0, rows, 1) == HAYRO_JBIG2_OK && rows[0] == 0x80);
        answer = hayro_jbig2_file_draw(file, 2, context);
    }
    if (answer == HAYRO_JBIG2_OK)
        CHECK(hayro_jbig2_context_rows(context, 0, rows, 5 * 8) == HAYRO_JBIG2_OK && has_rows(third_page, 5, 8));
    hayro_jbig2_globals_free(shared);
    hayro_jbig2_globals_free(other);
    hayro_jbig2_page_free(read);
    hayro_jbig2_file_free(file);
    hayro_jbig2_context_free(context);
    return answer;
}

static void tells_want_of_memory(void) {
    unsigned long refusals = 0;
    for (;;) {
        struct counted counted = {.refused_request = refusals + 1};
        const hayro_jbig2_memory memory = {take, give_back, &counted};
        uint32_t answer = draws_both(&memory);
        CHECK(counted.blocks == 0 && counted.bytes == 0);
        if (answer == HAYRO_JBIG2_OK)
            break;
        CHECK(answer == HAYRO_JBIG2_OUT_OF_MEMORY);
        refusals++;
    }
    CHECK(refusals > FEWEST_REFUSALS);
}

/* A thread has a handle of the globals and a context of its own. */
static void *draws_often(void *handle) {
    hayro_jbig2_globals *shared = handle;
    hayro_jbig2_context *context = NULL;
    uintptr_t failed = hayro_jbig2_context_new(NULL, &context) != HAYRO_JBIG2_OK;
    for (int i = 0; i < 50 && !failed; i++) {
        hayro_jbig2_page *read = NULL;
        uint8_t row = 0;
        failed = hayro_jbig2_page_new(NULL, false, shared, taken.at, taken.length, &read) != HAYRO_JBIG2_OK ||
                 hayro_jbig2_page_draw(read, context) != HAYRO_JBIG2_OK ||
                 hayro_jbig2_context_rows(context, 0, &row, 1) != HAYRO_JBIG2_OK || row != 0x80;
        hayro_jbig2_page_free(read);
    }
    hayro_jbig2_context_free(context);
    hayro_jbig2_globals_free(shared);
    return (void *)failed;
}

static void shares_globals_with_threads(void) {
    enum { THREADS = 4 };
    hayro_jbig2_globals *shared = NULL, *own[THREADS] = {NULL};
    pthread_t threads[THREADS];
    CHECK(hayro_jbig2_globals_new(NULL, false, globals.at, globals.length, &shared) == HAYRO_JBIG2_OK);
    for (int i = 0; i < THREADS; i++)
        CHECK(hayro_jbig2_globals_share(NULL, shared, &own[i]) == HAYRO_JBIG2_OK);
    hayro_jbig2_globals_free(shared);
    for (int i = 0; i < THREADS; i++)
        CHECK(pthread_create(&threads[i], NULL, draws_often, own[i]) == 0);
    for (int i = 0; i < THREADS; i++) {
        void *failed;
        CHECK(pthread_join(threads[i], &failed) == 0 && failed == NULL);
    }
}

/* What drawing a page leaves of a limit, or 1 more than the limit where it fails otherwise than it should. */
static uint64_t left_of(hayro_jbig2_file *file, size_t index, hayro_jbig2_context *context, uint64_t work) {
    uint64_t left = 7;
    CHECK(hayro_jbig2_context_set_work_limit(context, work) == HAYRO_JBIG2_OK);
    uint32_t answer = hayro_jbig2_file_draw(file, index, context);
    CHECK(hayro_jbig2_context_get_work_left(context, &left) == HAYRO_JBIG2_OK);
    return answer == HAYRO_JBIG2_OK ? left : answer == HAYRO_JBIG2_WORK_LIMIT && left == 0 ? work : work + 1;
}

/* A page is drawn within what it takes, and refused within any less; then the context draws it without a limit. */
static void keeps_limits(void) {
    const uint64_t most = (uint64_t)1 << 40;
    hayro_jbig2_file *file = NULL;
    hayro_jbig2_context *context = NULL;
    hayro_jbig2_globals *shared = NULL;
    CHECK(hayro_jbig2_file_new_within(NULL, true, 0, book.at, book.length, &file) == HAYRO_JBIG2_WORK_LIMIT);
    CHECK(file == NULL);
    CHECK(hayro_jbig2_file_new_within(NULL, true, most, book.at, book.length, &file) == HAYRO_JBIG2_OK);
    CHECK(hayro_jbig2_context_new(NULL, &context) == HAYRO_JBIG2_OK);
    for (size_t index = 0; index < 3; index++) {
        uint64_t taken = most - left_of(file, index, context, most);
        CHECK(taken > 0 && taken < most);
        CHECK(left_of(file, index, context, taken) == 0);
        for (uint64_t work = 0; work < taken; work += work + 997 < taken ? 997 : 1)
            CHECK(left_of(file, index, context, work) == work);
        CHECK(left_of(file, index, context, HAYRO_JBIG2_NO_WORK_LIMIT) == HAYRO_JBIG2_NO_WORK_LIMIT);
    }
    CHECK(hayro_jbig2_globals_new_within(NULL, false, 0, globals.at, globals.length, &shared) ==
          HAYRO_JBIG2_WORK_LIMIT);
    CHECK(shared == NULL);
    CHECK(hayro_jbig2_globals_new_within(NULL, false, most, globals.at, globals.length, &shared) == HAYRO_JBIG2_OK);
    hayro_jbig2_globals_free(shared);
    hayro_jbig2_context_free(context);
    hayro_jbig2_file_free(file);
}

/* Whether a context holds no page: it has no rows. */
static bool holds_no_page(hayro_jbig2_context *context) {
    hayro_jbig2_passed_over passed = {9, 9, 9};
    uint8_t row = 9;
    CHECK(hayro_jbig2_context_get_passed_over(context, &passed) == HAYRO_JBIG2_OK);
    return hayro_jbig2_context_rows(context, 0, &row, 1) == HAYRO_JBIG2_OTHER_SIZE && row == 9 && passed.count == 0;
}

/* Draws the file's last page in the context, which holds it then. */
static void draws_last(hayro_jbig2_file *file, hayro_jbig2_context *context) {
    uint8_t row;
    CHECK(hayro_jbig2_context_set_work_limit(context, HAYRO_JBIG2_NO_WORK_LIMIT) == HAYRO_JBIG2_OK);
    CHECK(hayro_jbig2_file_draw(file, 2, context) == HAYRO_JBIG2_OK);
    CHECK(hayro_jbig2_context_rows(context, 0, &row, 1) == HAYRO_JBIG2_OK);
}

/* After each kind of error a context that held a page holds none. */
static void forgets_after_errors(void) {
    struct counted counted = {0};
    const hayro_jbig2_memory memory = {take, give_back, &counted};
    hayro_jbig2_page *bad = NULL;
    hayro_jbig2_file *file = NULL;
    hayro_jbig2_context *context = NULL;
    CHECK(hayro_jbig2_file_new(NULL, true, book.at, book.length, &file) == HAYRO_JBIG2_OK);
    CHECK(hayro_jbig2_page_new(&memory, true, NULL, faulty.at, faulty.length, &bad) == HAYRO_JBIG2_OK);
    CHECK(hayro_jbig2_context_new(&memory, &context) == HAYRO_JBIG2_OK);
    CHECK(holds_no_page(context));
    draws_last(file, context);
    uint32_t answer = hayro_jbig2_page_draw(bad, context);
    CHECK(answer != HAYRO_JBIG2_OK && answer < HAYRO_JBIG2_UNSUPPORTED && holds_no_page(context));
    draws_last(file, context);
    CHECK(hayro_jbig2_file_draw(file, 3, context) == HAYRO_JBIG2_NO_SUCH_PAGE && holds_no_page(context));
    draws_last(file, context);
    CHECK(hayro_jbig2_page_draw((hayro_jbig2_page *)file, context) == HAYRO_JBIG2_OTHER_HANDLE);
    CHECK(holds_no_page(context));
    draws_last(file, context);
    CHECK(hayro_jbig2_context_set_work_limit(context, 1500) == HAYRO_JBIG2_OK);
    CHECK(hayro_jbig2_file_draw(file, 2, context) == HAYRO_JBIG2_WORK_LIMIT && holds_no_page(context));
    draws_last(file, context);
    /* A page that is larger than all that the context has held. */
    counted.refused_request = counted.requests + 1;
    CHECK(hayro_jbig2_file_draw(file, 0, context) == HAYRO_JBIG2_OUT_OF_MEMORY && holds_no_page(context));
    draws_last(file, context);
    hayro_jbig2_context_free(context);
    hayro_jbig2_page_free(bad);
    hayro_jbig2_file_free(file);
    CHECK(counted.blocks == 0 && counted.bytes == 0);
}

int main(int count, char **words) {
    if (count != 3)
        return 2;
    read_file(words[1], &page);
    read_file(words[2], &book);
    page_with_globals(&page, &globals, &taken);
    /* Two immediate generic regions, segments 5 and 6, without their headers. */
    append(&faulty, page.at, page.length);
    append(&faulty,
           "\0\0\0\5\x26\0\1\0\0\0\0"
           "\0\0\0\6\x26\0\1\0\0\0\0",
           22);

    struct counted counted = {0};
    const hayro_jbig2_memory memory = {take, give_back, &counted};
    draws_files(NULL, false);
    draws_files(&memory, true);
    draws_streams(NULL);
    draws_streams(&memory);
    CHECK(counted.requests > 0 && counted.blocks == 0 && counted.bytes == 0);
    tells_what_it_passed_over();
    draws_again_without_memory();
    refuses_faults();
    refuses_other_handles();
    refuses_other_pages();
    tells_want_of_memory();
    shares_globals_with_threads();
    keeps_limits();
    forgets_after_errors();
    printf("%u checks of calls on handles from C, %u failed\n", checks, failures);
    return failures > 0;
}

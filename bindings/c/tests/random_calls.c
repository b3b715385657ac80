/* Makes calls at random: handles of all kinds, shared and freed in any order, handles of wrong kinds, damaged and cut
 * bytes, requests for memory that are refused, and calls made while the library asks for memory.
 *
 * usage: random_calls SEED SECONDS THREADS FILE .., JBIG2 files with a header. Each thread has handles of its own, and
 * shares the globals of one handle with the others. bindings/c/random-calls builds it with sanitizers. */
#include "hayro_jbig2.h"
#include "random_memory.h"

#include <pthread.h>
#include <time.h>

/* Each thread makes so many rounds of calls at least: on a busy machine a second is over before the first. */
enum { SLOTS = 24, MOST_FILES = 4096, FILE_HEADER = 13, FEWEST_ROUNDS = 20 };
enum kind { GLOBALS, CONTEXT, PAGE, BOOK, WRITTEN, KINDS };

/* A handle, or none. Each has the address of a pointer that the library fills. */
struct slot {
    enum kind kind;
    bool is_busy;
    union {
        void *any;
        hayro_jbig2_globals *globals;
        hayro_jbig2_context *context;
        hayro_jbig2_page *page;
        hayro_jbig2_file *book;
        hayro_jbig2_written *written;
    };
    uint8_t *bytes; /* what a file borrows */
};

struct input {
    uint8_t *bytes;
    size_t length;
    bool is_damaged;
};

static struct input files[MOST_FILES];
static size_t file_count;
static struct counted counts[2];
static const hayro_jbig2_memory memories[2] = {{take, give_back, &counts[0]}, {take, give_back, &counts[1]}};
static struct timespec end_time;

static hayro_jbig2_globals *common;
static pthread_mutex_t common_lock = PTHREAD_MUTEX_INITIALIZER;

static _Thread_local struct slot slots[SLOTS];
static _Thread_local unsigned depth;
static _Thread_local unsigned long calls;

static const hayro_jbig2_memory *any_memory(void) {
    uint64_t place = below(3);
    return place < 2 ? &memories[place] : NULL;
}

/* A copy of a file's bytes, of just their length: as they are, without the header, cut off or damaged. */
static struct input any_input(bool with_header) {
    const struct input *file = &files[below(file_count)];
    size_t start = with_header != one_in(16) || file->length < FILE_HEADER ? 0 : FILE_HEADER;
    struct input input = {NULL, file->length - start, false};
    if (one_in(4))
        input.length = below(input.length + 1);
    input.bytes = malloc(input.length + 1);
    CHECK(input.bytes != NULL);
    memcpy(input.bytes, file->bytes + start, input.length);
    input.is_damaged = one_in(2) && input.length > 0;
    for (uint64_t left = input.is_damaged ? 1 + below(8) : 0; left > 0; left--)
        input.bytes[below(input.length)] = (uint8_t)below(256);
    return input;
}

/* An empty slot, or NULL. */
static struct slot *new_slot(enum kind kind) {
    for (int i = 0; i < SLOTS; i++)
        if (slots[i].any == NULL && !slots[i].is_busy) {
            slots[i] = (struct slot){.kind = kind, .is_busy = true};
            return &slots[i];
        }
    return NULL;
}

/* A handle of this kind that no call uses, now and then of another kind, or NULL. It is busy until it is let go. */
static struct slot *any_slot(enum kind kind) {
    bool of_any_kind = one_in(16);
    uint64_t first = below(SLOTS);
    for (uint64_t i = 0; i < SLOTS; i++) {
        struct slot *slot = &slots[(first + i) % SLOTS];
        if (slot->any != NULL && !slot->is_busy && (of_any_kind || slot->kind == kind)) {
            slot->is_busy = true;
            return slot;
        }
    }
    return NULL;
}

static void let_go(struct slot *slot) {
    if (slot != NULL)
        slot->is_busy = false;
}

/* What a call returned: a known number, and whether a handle has another kind. */
static void expect(uint32_t answer, bool is_right_kind) {
    calls++;
    CHECK(hayro_jbig2_error_text(answer) != hayro_jbig2_error_text(99));
    CHECK(is_right_kind ? answer != HAYRO_JBIG2_OTHER_HANDLE : answer == HAYRO_JBIG2_OTHER_HANDLE);
}

static void expect_new(struct slot *made, uint32_t answer, bool is_right_kind) {
    expect(answer, is_right_kind);
    CHECK((answer == HAYRO_JBIG2_OK) == (made->any != NULL));
    let_go(made);
}

static uint64_t any_limit(void) { return below(4) == 0 ? below(4096) : 1 << 18; }

static void make_globals(void) {
    struct slot *made = new_slot(GLOBALS);
    if (made == NULL)
        return;
    struct input input = any_input(false);
    bool strict = one_in(2);
    const hayro_jbig2_memory *memory = any_memory();
    uint32_t answer;
    if (one_in(2))
        answer = hayro_jbig2_globals_new_salvaged(memory, any_limit(), input.bytes, input.length, &made->globals);
    else if (input.is_damaged || one_in(2))
        answer = hayro_jbig2_globals_new_within(memory, strict, any_limit(), input.bytes, input.length, &made->globals);
    else
        answer = hayro_jbig2_globals_new(memory, strict, input.bytes, input.length, &made->globals);
    expect_new(made, answer, true);
    free(input.bytes);
}

static void share_globals(void) {
    struct slot *made = new_slot(GLOBALS);
    if (made == NULL)
        return;
    if (depth == 0 && one_in(2)) {
        pthread_mutex_lock(&common_lock);
        expect_new(made, hayro_jbig2_globals_share(NULL, common, &made->globals), true);
        pthread_mutex_unlock(&common_lock);
        return;
    }
    struct slot *slot = any_slot(GLOBALS);
    if (slot != NULL) {
        bool is_right = slot->kind == GLOBALS;
        expect_new(made, hayro_jbig2_globals_share(any_memory(), slot->globals, &made->globals), is_right);
    }
    let_go(slot);
    let_go(made);
}

static void make_context(void) {
    struct slot *made = new_slot(CONTEXT);
    if (made == NULL)
        return;
    expect_new(made, hayro_jbig2_context_new(any_memory(), &made->context), true);
    if (made->any != NULL)
        expect(hayro_jbig2_context_set_work_limit(made->context, any_limit()), true);
}

static void make_page(void) {
    struct slot *made = new_slot(PAGE);
    if (made == NULL)
        return;
    struct slot *shared = one_in(4) ? NULL : any_slot(GLOBALS);
    struct input input = any_input(false);
    hayro_jbig2_globals *globals = shared == NULL ? NULL : shared->globals;
    uint32_t answer;
    if (one_in(2))
        answer = hayro_jbig2_page_new_salvaged(any_memory(), globals, input.bytes, input.length, &made->page);
    else
        answer = hayro_jbig2_page_new(any_memory(), one_in(2), globals, input.bytes, input.length, &made->page);
    expect_new(made, answer, shared == NULL || shared->kind == GLOBALS);
    let_go(shared);
    free(input.bytes);
}

static void make_book(void) {
    struct slot *made = new_slot(BOOK);
    if (made == NULL)
        return;
    struct input input = any_input(true);
    uint32_t answer;
    if (one_in(2))
        answer = hayro_jbig2_file_new_salvaged(any_memory(), any_limit(), input.bytes, input.length, &made->book);
    else
        answer =
            hayro_jbig2_file_new_within(any_memory(), one_in(2), any_limit(), input.bytes, input.length, &made->book);
    if (answer == HAYRO_JBIG2_OK)
        made->bytes = input.bytes;
    else
        free(input.bytes);
    expect_new(made, answer, true);
}

/* Writes a picture of a file's bytes, now and then of a size or by settings that are refused. */
static void make_written(void) {
    struct slot *made = new_slot(WRITTEN);
    if (made == NULL)
        return;
    struct input input = any_input(true);
    const hayro_jbig2_write_settings settings = {
        .template_number = (uint32_t)below(one_in(8) ? 6 : 4),
        .x_resolution = (uint32_t)below(UINT32_MAX),
        .y_resolution = (uint32_t)below(UINT32_MAX),
        .typical = one_in(2),
        .whole_file = one_in(2),
        .mmr = one_in(2),
    };
    uint32_t width = (uint32_t)below(200), height = (uint32_t)(input.length / ((width + 7) / 8 + 1));
    size_t size = (size_t)(width + 7) / 8 * height, other = one_in(8) ? below(input.length + 1) : size;
    uint32_t answer =
        hayro_jbig2_written_new(any_memory(), input.bytes, other, width, height, &settings, &made->written);
    bool has_template = settings.mmr || settings.template_number <= 3;
    /* The portable C asks for memory before it looks at the settings. */
    if (answer != HAYRO_JBIG2_OUT_OF_MEMORY) {
        CHECK((answer == HAYRO_JBIG2_NO_SUCH_TEMPLATE) == !has_template);
        CHECK((answer == HAYRO_JBIG2_OTHER_SIZE) == (has_template && other != size));
    }
    expect_new(made, answer, true);
    free(input.bytes);
}

static void read_written(void) {
    struct slot *slot = any_slot(WRITTEN);
    if (slot == NULL)
        return;
    bool is_right = slot->kind == WRITTEN;
    size_t length = hayro_jbig2_written_length(slot->written), wanted = one_in(8) ? below(200) : length;
    CHECK(is_right ? length > 0 : length == 0);
    uint8_t *bytes = malloc(wanted + 1);
    CHECK(bytes != NULL);
    uint32_t answer = hayro_jbig2_written_bytes(slot->written, bytes, wanted);
    expect(answer, is_right);
    CHECK((answer == HAYRO_JBIG2_OTHER_SIZE) == (is_right && wanted != length));
    free(bytes);
    let_go(slot);
}

static void draw(void) {
    struct slot *context = any_slot(CONTEXT), *drawn = any_slot(one_in(2) ? PAGE : BOOK);
    if (context != NULL && drawn != NULL) {
        bool is_context = context->kind == CONTEXT;
        if (drawn->kind == BOOK && !one_in(8))
            expect(hayro_jbig2_file_draw(drawn->book, below(4), context->context), is_context);
        else
            expect(hayro_jbig2_page_draw(drawn->page, context->context), is_context && drawn->kind == PAGE);
    }
    let_go(context);
    let_go(drawn);
}

static void read_context(void) {
    struct slot *slot = any_slot(CONTEXT);
    if (slot == NULL)
        return;
    bool is_right = slot->kind == CONTEXT;
    size_t length = below(200), place = one_in(16) ? SIZE_MAX - below(200) : below(400);
    uint8_t *rows = malloc(length + 1);
    CHECK(rows != NULL);
    hayro_jbig2_passed_over passed_over;
    uint64_t left;
    expect(hayro_jbig2_context_rows(slot->context, place, rows, length), is_right);
    expect(hayro_jbig2_context_get_passed_over(slot->context, &passed_over), is_right);
    expect(hayro_jbig2_context_get_work_left(slot->context, &left), is_right);
    free(rows);
    let_go(slot);
}

static void read_book(hayro_jbig2_file *book, bool is_right) {
    hayro_jbig2_page_info infos[8];
    hayro_jbig2_left_out left_out;
    size_t count = hayro_jbig2_file_page_count(book), wanted = one_in(8) ? below(8) : count;
    CHECK(is_right || count == 0);
    if (wanted <= 8) {
        uint32_t answer = hayro_jbig2_file_get_infos(book, infos, wanted);
        expect(answer, is_right);
        CHECK((answer == HAYRO_JBIG2_OTHER_SIZE) == (is_right && wanted != count));
    }
    expect(hayro_jbig2_file_get_info(book, below(4), infos), is_right);
    expect(hayro_jbig2_file_get_left_out(book, &left_out), is_right);
}

static void read_source(void) {
    hayro_jbig2_page_info info;
    hayro_jbig2_left_out left_out;
    enum kind kind = one_in(3) ? GLOBALS : one_in(2) ? PAGE : BOOK;
    struct slot *slot = any_slot(kind);
    if (slot == NULL)
        return;
    bool is_right = slot->kind == kind;
    if (kind == GLOBALS)
        expect(hayro_jbig2_globals_get_left_out(slot->globals, &left_out), is_right);
    else if (kind == BOOK)
        read_book(slot->book, is_right);
    else {
        expect(hayro_jbig2_page_get_info(slot->page, &info), is_right);
        expect(hayro_jbig2_page_get_left_out(slot->page, &left_out), is_right);
    }
    let_go(slot);
}

static void free_slot(struct slot *slot) {
    slot->is_busy = true;
    if (slot->kind == GLOBALS)
        hayro_jbig2_globals_free(slot->globals);
    else if (slot->kind == CONTEXT)
        hayro_jbig2_context_free(slot->context);
    else if (slot->kind == PAGE)
        hayro_jbig2_page_free(slot->page);
    else if (slot->kind == WRITTEN)
        hayro_jbig2_written_free(slot->written);
    else
        hayro_jbig2_file_free(slot->book);
    free(slot->bytes);
    *slot = (struct slot){0};
    calls++;
}

static void free_any(void) {
    struct slot *slot = any_slot((enum kind)below(KINDS));
    if (slot != NULL)
        free_slot(slot);
    hayro_jbig2_page_free(NULL);
}

/* The calls on bytes have no limit of work, so the bytes are cut off at most. */
static void call_on_bytes(void) {
    struct input input = any_input(true);
    uint32_t width = 1, height = 1;
    size_t count;
    uint8_t *image = NULL;
    bool strict = one_in(2);
    if (!input.is_damaged) {
        expect(hayro_jbig2_page_count(strict, input.bytes, input.length, &count), true);
        size_t index = below(3);
        uint32_t answer = hayro_jbig2_page_size(strict, input.bytes, input.length, index, &width, &height);
        expect(answer, true);
        CHECK(answer != HAYRO_JBIG2_OK || (width > 0 && width <= 65535 && height > 0 && height <= 65535));
        size_t size = (size_t)width * height, other = one_in(8) ? below(size + 2) : size;
        image = malloc(other + 1);
        CHECK(image != NULL);
        answer = hayro_jbig2_page_image(strict, input.bytes, input.length, index, image, other);
        expect(answer, true);
        CHECK(answer != HAYRO_JBIG2_OK || other == size);
        expect(hayro_jbig2_page_packed(strict, input.bytes, input.length, index, image, other / 8), true);
        expect(hayro_jbig2_embedded_size(strict, input.bytes, input.length, &width, &height), true);
        const uint8_t *none = one_in(2) ? NULL : input.bytes;
        expect(hayro_jbig2_embedded_packed(strict, none, 0, input.bytes, input.length, image, other / 8), true);
    }
    free(image);
    free(input.bytes);
}

static void act(void) {
    static void (*const acts[])(void) = {make_globals, share_globals, make_context, make_page,    make_book,
                                         draw,         draw,          read_context, read_source,  free_any,
                                         make_written, read_written,  free_any,     call_on_bytes};
    acts[below(sizeof acts / sizeof *acts)]();
}

/* In the middle of a call: others, on handles that it doesn't use. */
static void act_within(void) {
    if (depth > 0)
        return;
    unsigned after = granted;
    depth++;
    granted = one_in(4) ? (unsigned)below(20) : UINT32_MAX;
    for (uint64_t left = 1 + below(3); left > 0; left--)
        act();
    granted = after;
    depth--;
}

static bool is_over(void) {
    struct timespec now;
    clock_gettime(CLOCK_MONOTONIC, &now);
    return now.tv_sec > end_time.tv_sec || (now.tv_sec == end_time.tv_sec && now.tv_nsec >= end_time.tv_nsec);
}

static void *run_thread(void *seed) {
    random_state = (uint64_t)(uintptr_t)seed * 0x9E3779B97F4A7C15 + 1;
    for (unsigned round = 0; round < FEWEST_ROUNDS || !is_over(); round++) {
        for (int left = 200; left > 0; left--) {
            granted = one_in(3) ? (unsigned)below(80) : UINT32_MAX;
            act();
        }
        while (one_in(2))
            free_any();
    }
    granted = UINT32_MAX;
    /* Nothing is made any more. */
    depth++;
    for (int i = 0; i < SLOTS; i++)
        if (slots[i].any != NULL)
            free_slot(&slots[i]);
    return (void *)calls;
}

static void read_files(int count, char **names) {
    for (int i = 0; i < count && i < MOST_FILES; i++) {
        FILE *file = fopen(names[i], "rb");
        uint8_t *bytes = malloc(1 << 16);
        if (file == NULL || bytes == NULL) {
            perror(names[i]);
            exit(2);
        }
        files[file_count++] = (struct input){bytes, fread(bytes, 1, 1 << 16, file), false};
        fclose(file);
    }
}

int main(int count, char **words) {
    enum { MOST_THREADS = 64 };
    int threads = count > 4 ? atoi(words[3]) : 0;
    if (threads < 1 || threads > MOST_THREADS) {
        fputs("usage: random_calls SEED SECONDS THREADS FILE ..\n", stderr);
        return 2;
    }
    first_seed = strtoull(words[1], NULL, 10);
    read_files(count - 4, words + 4);
    clock_gettime(CLOCK_MONOTONIC, &end_time);
    end_time.tv_sec += atoi(words[2]);
    at_request = act_within;
    /* A symbol dictionary that is empty. */
    static const uint8_t shared[] = "\0\0\0\1\0\0\1\0\0\0\x0F\0\1\0\0\0\1\0\0\0\1\x5F\x80\x80\0\x40";
    CHECK(hayro_jbig2_globals_new(&memories[0], true, shared, sizeof shared - 1, &common) == HAYRO_JBIG2_OK);
    pthread_t ids[MOST_THREADS];
    unsigned long sum = 0;
    for (int i = 0; i < threads; i++)
        CHECK(pthread_create(&ids[i], NULL, run_thread, (void *)(uintptr_t)(first_seed + (uint64_t)i)) == 0);
    for (int i = 0; i < threads; i++) {
        void *made;
        CHECK(pthread_join(ids[i], &made) == 0);
        sum += (unsigned long)made;
    }
    at_request = NULL;
    hayro_jbig2_globals_free(common);
    for (size_t i = 0; i < file_count; i++)
        free(files[i].bytes);
    for (int i = 0; i < 2; i++)
        CHECK(counts[i].blocks == 0 && counts[i].bytes == 0);
    printf("seed %llu: %lu calls in %d threads\n", (unsigned long long)first_seed, sum, threads);
    return 0;
}

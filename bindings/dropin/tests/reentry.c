/* Allocators that come back into the library, as MuPDF's does, which frees other globals where memory is short. */
#include "support.h"

#include <pthread.h>
#include <setjmp.h>
#include <stddef.h>
#include <string.h>

struct reentrant;
typedef void visit(struct reentrant *memory);

/* Comes back once, in its call number `at` from 1. */
struct reentrant {
    struct counted memory, other;
    struct allocator inner;
    unsigned long calls, at;
    visit *visit;
    struct globals *used, *spare[2];
    struct heard heard;
};

static void come_back(struct reentrant *memory) {
    if (++memory->calls == memory->at)
        memory->visit(memory);
}

static void *take_and_come_back(struct allocator *allocator, size_t size) {
    come_back((struct reentrant *)allocator);
    return ((struct reentrant *)allocator)->inner.take(allocator, size);
}

static void give_back_and_come_back(struct allocator *allocator, void *block) {
    come_back((struct reentrant *)allocator);
    ((struct reentrant *)allocator)->inner.give_back(allocator, block);
}

static void draw_in(struct context *context) {
    CHECK(jbig2_data_in(context, stream.at, stream.length) == 0);
    CHECK(jbig2_complete_page(context) == 0);
    struct image *image = jbig2_page_out(context);
    CHECK(image != NULL && is_meant(image));
    jbig2_release_page(context, image);
}

static void draw_with(struct allocator *allocator, struct globals *globals, struct heard *heard) {
    struct context *context = embedded_context(allocator, globals, heard);
    draw_in(context);
    jbig2_ctx_free(context);
}

static void free_other_globals(struct reentrant *memory) {
    for (int i = 0; i < 2; i++)
        jbig2_global_ctx_free(memory->spare[i]);
    memset(memory->spare, 0, sizeof memory->spare);
}

/* Over the allocator that came back, and over another one. */
static void draw_with_the_same_globals(struct reentrant *memory) {
    if (memory->used == NULL)
        return;
    draw_with(&memory->memory.base, memory->used, &memory->heard);
    draw_with(&memory->other.base, memory->used, &memory->heard);
}

static void draw_with_globals_of_its_own(struct reentrant *memory) {
    struct globals *globals = made_globals(&memory->memory.base, &memory->heard);
    draw_with(&memory->memory.base, globals, &memory->heard);
    jbig2_global_ctx_free(globals);
}

static void free_the_same_globals(struct reentrant *memory) {
    jbig2_global_ctx_free(memory->used);
    memory->used = NULL;
}

/* Draws a page, while the allocator of the globals or that of the page comes back. Returns how often it was called. */
static unsigned long comes_back(visit *visit, bool has_own_allocator, unsigned long at) {
    struct reentrant memory = {.memory = counted_allocator(), .other = counted_allocator(), .visit = visit};
    memory.inner = memory.memory.base;
    memory.memory.base.take = take_and_come_back;
    memory.memory.base.give_back = give_back_and_come_back;
    for (int i = 0; i < 2; i++)
        memory.spare[i] = made_globals(i == 0 ? &memory.memory.base : &memory.other.base, &memory.heard);
    memory.calls = 0;
    memory.at = at;
    struct globals *globals = made_globals(has_own_allocator ? &memory.other.base : &memory.memory.base, &memory.heard);
    struct context *context = embedded_context(&memory.memory.base, globals, &memory.heard);
    memory.used = globals;
    draw_in(context);
    unsigned long calls = memory.calls;
    jbig2_global_ctx_free(memory.used);
    jbig2_ctx_free(context);
    free_other_globals(&memory);
    CHECK(memory.memory.held == 0 && memory.other.held == 0 && memory.heard.count[SEVERITY_FATAL] == 0);
    return calls;
}

/* In each call, or in each one of `step`. */
static unsigned long comes_back_in_turn(visit *visit, unsigned long step) {
    unsigned long times = 0;
    for (int has_own_allocator = 0; has_own_allocator < 2; has_own_allocator++) {
        unsigned long calls = comes_back(visit, has_own_allocator, 0);
        for (unsigned long at = 1; at <= calls; at += step, times++)
            comes_back(visit, has_own_allocator, at);
    }
    return times;
}

void comes_back_out_of_allocators(void) {
    /* Valgrind, which has a malloc of its own, is slow. */
    unsigned long step = &mallocs == NULL ? 151 : 1;
    unsigned long times = comes_back_in_turn(free_other_globals, step);
    times += comes_back_in_turn(free_the_same_globals, step);
    times += comes_back_in_turn(draw_with_the_same_globals, step);
    times += comes_back_in_turn(draw_with_globals_of_its_own, 9 * step);
    printf("an allocator came back in %lu calls\n", times);
}

/* A caller that leaves a call by longjmp has to free the context. Its blocks come from a room that goes at once. */
static jmp_buf left;
static _Alignas(16) uint8_t room[1 << 22];
static size_t taken;

struct leaving {
    struct allocator base;
    unsigned long requests, at;
};

static void *take_or_leave(struct allocator *allocator, size_t size) {
    struct leaving *memory = (struct leaving *)allocator;
    if (++memory->requests == memory->at)
        longjmp(left, 1);
    void *block = room + taken;
    taken += (size + 7) / 8 * 8;
    CHECK(taken <= sizeof room);
    return block;
}

static void keep(struct allocator *allocator, void *block) { (void)allocator, (void)block; }

static void *free_them(void *globals) {
    jbig2_global_ctx_free(globals);
    return NULL;
}

/* Whether a file was left in a request of this number. */
static bool is_file_left_at(unsigned long at) {
    struct leaving memory = {.base = {take_or_leave, keep, NULL}};
    struct heard heard = {0};
    taken = 0;
    struct context *context = file_context(&memory.base, &heard);
    volatile bool is_left = true;
    jbig2_data_in(context, book.at, book.length);
    memory.at = memory.requests + at;
    if (setjmp(left) == 0) {
        jbig2_complete_page(context);
        while (jbig2_page_out(context) != NULL)
            continue;
        is_left = false;
    }
    jbig2_ctx_free(context);
    return is_left;
}

/* Whether the page was left in a request of this number. Another thread frees the globals, and doesn't wait for a page
 * that will never be drawn. */
static bool is_left_at(unsigned long at) {
    struct leaving of_globals = {.base = {take_or_leave, keep, NULL}}, memory = of_globals;
    struct heard heard = {0};
    taken = 0;
    struct globals *globals = made_globals(&of_globals.base, &heard);
    struct context *context = embedded_context(&memory.base, globals, &heard);
    volatile bool is_left = true;
    pthread_t thread;
    jbig2_data_in(context, stream.at, stream.length);
    memory.at = memory.requests + at;
    if (setjmp(left) == 0) {
        jbig2_complete_page(context);
        is_left = false;
    }
    jbig2_ctx_free(context);
    CHECK(pthread_create(&thread, NULL, free_them, globals) == 0 && pthread_join(thread, NULL) == 0);
    return is_left;
}

static void hear_and_leave(void *data, const char *text, enum severity severity, uint32_t segment) {
    (void)data, (void)text, (void)severity, (void)segment;
    longjmp(left, 1);
}

/* A listener that leaves loses nothing: of the stream with a segment of an unknown type after it, or of its start. */
static void a_listener_leaves(bool is_refused) {
    static struct counted memory;
    struct heard heard = {0};
    memory = counted_allocator();
    struct globals *globals = made_globals(&memory.base, &heard);
    struct context *context =
        jbig2_ctx_new_imp(&memory.base, OPTION_EMBEDDED, globals, hear_and_leave, NULL, ABI_MAJOR, ABI_MINOR);
    jbig2_data_in(context, stream.at, is_refused ? 20 : stream.length);
    jbig2_data_in(context, (const uint8_t *)"1234\x3F", is_refused ? 0 : 5);
    if (setjmp(left) == 0) {
        jbig2_complete_page(context);
        CHECK(!"nothing was told");
    }
    CHECK(jbig2_complete_page(context) == (is_refused ? -1 : 0));
    struct image *image = jbig2_page_out(context);
    CHECK((image == NULL) == is_refused && (is_refused || is_meant(image)));
    jbig2_release_page(context, image);
    jbig2_global_ctx_free(globals);
    jbig2_ctx_free(context);
    CHECK(memory.held == 0);
}

/* The caller has no globals then, but the context, and frees that. */
static void a_listener_leaves_globals(void) {
    static struct counted memory;
    memory = counted_allocator();
    struct context *context =
        jbig2_ctx_new_imp(&memory.base, OPTION_EMBEDDED, NULL, hear_and_leave, NULL, ABI_MAJOR, ABI_MINOR);
    jbig2_data_in(context, shared.at, shared.length);
    jbig2_data_in(context, (const uint8_t *)"1234\x3F", 5);
    if (setjmp(left) == 0) {
        jbig2_make_global_ctx(context);
        CHECK(!"nothing was told");
    }
    CHECK(jbig2_ctx_free(context) == &memory.base);
    CHECK(memory.held == 0);
}

/* A file of two pages of 8 by 1 pixels. In the second, a region is passed over: its data end before its flags. */
#define HEADER "\x97JB2\r\n\x1A\n\1\0\0\0\2"
#define SIZE "\0\0\0\x08\0\0\0\1\0\0\0\0\0\0\0\0"
#define PAGE(own, page) "\0\0\0" own "\x30\0" page "\0\0\0\x13" SIZE "\0\0\0"
#define END(own, page) "\0\0\0" own "\x31\0" page "\0\0\0\0"
#define REGION(own, page) "\0\0\0" own "\x26\0" page "\0\0\0\x11" SIZE "\0"

/* The page at hand comes with the next call. */
static void a_listener_leaves_a_page_of_a_file(void) {
    static const uint8_t file[] =
        HEADER PAGE("\1", "\1") END("\2", "\1") PAGE("\3", "\2") REGION("\4", "\2") END("\5", "\2");
    static struct counted memory;
    memory = counted_allocator();
    struct context *context = jbig2_ctx_new_imp(&memory.base, 0, NULL, hear_and_leave, NULL, ABI_MAJOR, ABI_MINOR);
    CHECK(jbig2_data_in(context, file, sizeof file - 1) == 0 && jbig2_complete_page(context) == 0);
    jbig2_release_page(context, jbig2_page_out(context));
    if (setjmp(left) == 0) {
        jbig2_page_out(context);
        CHECK(!"nothing was told");
    }
    struct image *image = jbig2_page_out(context);
    CHECK(image != NULL && image->holders == 2);
    jbig2_release_page(context, image);
    CHECK(jbig2_page_out(context) == NULL);
    jbig2_ctx_free(context);
    CHECK(memory.held == 0);
}

void leaves_by_longjmp(void) {
    a_listener_leaves(false);
    a_listener_leaves(true);
    a_listener_leaves_globals();
    a_listener_leaves_a_page_of_a_file();
    unsigned long times = 0;
    while (is_left_at(times + 1))
        times++;
    for (unsigned long at = 1; is_file_left_at(at); at++)
        times++;
    printf("%lu requests left by longjmp\n", times);
}

/* Several threads, with allocators of their own and a common one, draw with the same globals. bindings/dropin/test runs this
 * under ThreadSanitizer too. */
#define _POSIX_C_SOURCE 200809L /* barriers */
#include "support.h"

#include <pthread.h>
#include <sched.h>

enum { THREADS = 6, PAGES = 45, ROUNDS = 20, GLOBALS = 3 };

/* One that all threads may call. */
static struct locked {
    struct counted memory;
    struct allocator inner;
    pthread_mutex_t lock;
} common = {.lock = PTHREAD_MUTEX_INITIALIZER};

static void *take_locked(struct allocator *allocator, size_t size) {
    pthread_mutex_lock(&common.lock);
    void *block = common.inner.take(allocator, size);
    pthread_mutex_unlock(&common.lock);
    return block;
}

static void give_back_locked(struct allocator *allocator, void *block) {
    pthread_mutex_lock(&common.lock);
    common.inner.give_back(allocator, block);
    pthread_mutex_unlock(&common.lock);
}

static void set_up_common(void) {
    common.memory = counted_allocator();
    common.inner = common.memory.base;
    common.memory.base.take = take_locked;
    common.memory.base.give_back = give_back_locked;
}

static void draw_in(struct context *context) {
    CHECK(jbig2_data_in(context, stream.at, stream.length) == 0);
    CHECK(jbig2_complete_page(context) == 0);
    struct image *image = jbig2_page_out(context);
    CHECK(image != NULL && is_meant(image));
    jbig2_release_page(context, image);
    jbig2_ctx_free(context);
}

static void *draw_pages(void *data) {
    struct globals **globals = data;
    struct counted memory = counted_allocator();
    struct heard heard = {0};
    struct allocator *allocators[] = {NULL, &memory.base, &common.memory.base};
    for (int i = 0; i < PAGES; i++)
        draw_in(embedded_context(allocators[i % 3], globals[i / 3 % GLOBALS], &heard));
    CHECK(memory.held == 0 && heard.count[SEVERITY_FATAL] == 0);
    return NULL;
}

/* While others make and free contexts with them. */
static void draws_with_the_same_globals(void) {
    pthread_t threads[THREADS];
    struct counted memory = counted_allocator();
    struct heard heard = {0};
    struct globals *globals[GLOBALS] = {made_globals(NULL, &heard), made_globals(&common.memory.base, &heard),
                                        made_globals(&memory.base, &heard)};
    for (int i = 0; i < THREADS; i++)
        CHECK(pthread_create(&threads[i], NULL, draw_pages, globals) == 0);
    for (int i = 0; i < THREADS; i++)
        CHECK(pthread_join(threads[i], NULL) == 0);
    for (int i = 0; i < GLOBALS; i++)
        jbig2_global_ctx_free(globals[i]);
    CHECK(memory.held == 0);
}

struct drawing {
    struct counted memory;
    struct heard heard;
    struct context *context;
    pthread_barrier_t *start;
    pthread_t thread;
};

static void *draw_when_all_do(void *data) {
    struct drawing *drawing = data;
    pthread_barrier_wait(drawing->start);
    draw_in(drawing->context);
    CHECK(drawing->memory.held == 0);
    return NULL;
}

/* The globals are freed by one thread while the others draw with them. After that their allocator is not called. */
static void frees_globals_that_are_drawn_with(int round) {
    static struct drawing drawings[THREADS];
    struct counted memory = counted_allocator();
    struct heard heard = {0};
    struct globals *globals = made_globals(&memory.base, &heard);
    pthread_barrier_t start;
    pthread_barrier_init(&start, NULL, THREADS + 1);
    for (int i = 0; i < THREADS; i++) {
        struct drawing *drawing = &drawings[i];
        *drawing = (struct drawing){.memory = counted_allocator(), .start = &start};
        drawing->context = embedded_context(&drawing->memory.base, globals, &drawing->heard);
        CHECK(pthread_create(&drawing->thread, NULL, draw_when_all_do, drawing) == 0);
    }
    pthread_barrier_wait(&start);
    for (int i = 0; i < round; i++)
        sched_yield();
    CHECK(jbig2_global_ctx_free(globals) == &memory.base);
    CHECK(memory.held == 0);
    memory.is_gone = true;
    for (int i = 0; i < THREADS; i++)
        CHECK(pthread_join(drawings[i].thread, NULL) == 0);
    pthread_barrier_destroy(&start);
}

/* Frees the globals of another thread in its request number `at`, when that thread has come as far. */
struct crossing {
    struct counted memory;
    struct allocator inner;
    struct globals *own, *others;
    unsigned long calls, at;
    pthread_barrier_t *meeting;
    pthread_t thread;
};

static void *take_and_free_others(struct allocator *allocator, size_t size) {
    struct crossing *crossing = (struct crossing *)allocator;
    if (++crossing->calls == crossing->at) {
        pthread_barrier_wait(crossing->meeting);
        jbig2_global_ctx_free(crossing->others);
    }
    return crossing->inner.take(allocator, size);
}

static void *draw_and_cross(void *data) {
    struct crossing *crossing = data;
    struct heard heard = {0};
    draw_in(embedded_context(&crossing->memory.base, crossing->own, &heard));
    CHECK(crossing->memory.held == 0);
    return NULL;
}

static struct crossing new_crossing(struct globals *globals) {
    struct crossing crossing = {.memory = counted_allocator(), .own = globals};
    crossing.inner = crossing.memory.base;
    crossing.memory.base.take = take_and_free_others;
    return crossing;
}

/* Two threads come out of drawing at the same time, and each frees what the other draws with: neither waits. */
static void frees_each_others_globals(void) {
    static struct crossing crossings[2];
    struct counted memories[2] = {counted_allocator(), counted_allocator()};
    struct heard heard = {0};
    pthread_barrier_t meeting;
    pthread_barrier_init(&meeting, NULL, 2);
    for (int i = 0; i < 2; i++) {
        crossings[i] = new_crossing(made_globals(&memories[i].base, &heard));
        draw_and_cross(&crossings[i]);
        /* The last request is the page's, of which the stream is still open. */
        crossings[i].at = crossings[i].calls;
        crossings[i].calls = 0;
        crossings[i].meeting = &meeting;
    }
    for (int i = 0; i < 2; i++) {
        crossings[i].others = crossings[1 - i].own;
        CHECK(pthread_create(&crossings[i].thread, NULL, draw_and_cross, &crossings[i]) == 0);
    }
    for (int i = 0; i < 2; i++)
        CHECK(pthread_join(crossings[i].thread, NULL) == 0);
    CHECK(memories[0].held == 0 && memories[1].held == 0);
    pthread_barrier_destroy(&meeting);
}

void shares_globals_among_threads(void) {
    set_up_common();
    draws_with_the_same_globals();
    for (int round = 0; round < ROUNDS; round++)
        frees_globals_that_are_drawn_with(round);
    frees_each_others_globals();
    CHECK(common.memory.held == 0);
}

/*
 * Times the pages of a document with shared globals: one embedded page, drawn many times.
 *
 * usage: documents WAY THREADS PAGES GLOBALS STREAM OUT
 *
 * WAY is "bytes" or "handles", the calls of the library for C, or a libjbig2dec.so.0, which is loaded. Each thread draws
 * its share of PAGES pages. Prints the seconds that passed and the seconds of the processor, and writes the page to OUT as
 * PBM. Status 1 where a page is refused or is another one than the first.
 */
#include "abi.h"
#include "hayro_jbig2.h"

#include <dlfcn.h>
#include <pthread.h>
#include <stdlib.h>
#include <string.h>
#include <time.h>

enum { MOST_THREADS = 1024 };

struct bytes {
    uint8_t *at;
    size_t length;
};

struct worker {
    const struct way *way;
    pthread_t thread;
    unsigned pages;
    /* The first page, and room for one that is copied. */
    uint32_t width, height;
    uint8_t *first, *rows;
    hayro_jbig2_globals *shared;
    hayro_jbig2_context *context;
    struct globals *of_peer;
};

struct way {
    /* In the main thread, of all workers, and then in each thread. */
    void (*share)(struct worker *workers, unsigned count);
    void (*begin)(struct worker *worker);
    void (*draw)(struct worker *worker);
    void (*end)(struct worker *worker);
};

static struct bytes globals, stream;

static void fail(const char *what) {
    fprintf(stderr, "documents: %s\n", what);
    exit(1);
}

static void want(uint32_t answer) {
    if (answer != HAYRO_JBIG2_OK)
        fail(hayro_jbig2_error_text(answer));
}

static void *room(size_t size) {
    void *block = malloc(size);
    return block == NULL ? (fail("out of memory"), NULL) : block;
}

static size_t size_of(uint32_t width, uint32_t height) { return ((size_t)width + 7) / 8 * height; }

/* Room for a page, which is made for the first one. */
static uint8_t *rows_for(struct worker *worker, uint32_t width, uint32_t height) {
    if (worker->first == NULL) {
        worker->first = room(size_of(width, height));
        worker->rows = room(size_of(width, height));
        worker->width = width;
        worker->height = height;
        return worker->first;
    }
    if (width != worker->width || height != worker->height)
        fail("a page of another size");
    return worker->rows;
}

static void compare(const struct worker *worker, const uint8_t *rows) {
    if (memcmp(rows, worker->first, size_of(worker->width, worker->height)) != 0)
        fail("another page");
}

/* The calls on bytes. */

static void draw_by_bytes(struct worker *worker) {
    uint32_t width, height;
    want(hayro_jbig2_embedded_size(false, stream.at, stream.length, &width, &height));
    uint8_t *rows = rows_for(worker, width, height);
    want(hayro_jbig2_embedded_packed(false, globals.at, globals.length, stream.at, stream.length, rows,
                                     size_of(width, height)));
    compare(worker, rows);
}

static void do_nothing(struct worker *worker) { (void)worker; }

static void share_nothing(struct worker *workers, unsigned count) { (void)workers, (void)count; }

/* Handles: globals that all threads share, and a context for each. */

static void share_globals(struct worker *workers, unsigned count) {
    want(hayro_jbig2_globals_new(NULL, false, globals.at, globals.length, &workers[0].shared));
    for (unsigned i = 1; i < count; i++)
        want(hayro_jbig2_globals_share(NULL, workers[0].shared, &workers[i].shared));
}

static void begin_handles(struct worker *worker) { want(hayro_jbig2_context_new(NULL, &worker->context)); }

static void draw_by_handles(struct worker *worker) {
    hayro_jbig2_page *page = NULL;
    hayro_jbig2_page_info info;
    want(hayro_jbig2_page_new(NULL, false, worker->shared, stream.at, stream.length, &page));
    want(hayro_jbig2_page_get_info(page, &info));
    want(hayro_jbig2_page_draw(page, worker->context));
    uint8_t *rows = rows_for(worker, info.width, info.height);
    want(hayro_jbig2_context_rows(worker->context, 0, rows, size_of(info.width, info.height)));
    compare(worker, rows);
    hayro_jbig2_page_free(page);
}

static void end_handles(struct worker *worker) {
    hayro_jbig2_context_free(worker->context);
    hayro_jbig2_globals_free(worker->shared);
}

/* libjbig2dec: globals for each thread, as they can't be shared. */

static struct {
    __typeof__(jbig2_ctx_new_imp) *ctx_new_imp;
    __typeof__(jbig2_ctx_free) *ctx_free;
    __typeof__(jbig2_make_global_ctx) *make_global_ctx;
    __typeof__(jbig2_global_ctx_free) *global_ctx_free;
    __typeof__(jbig2_data_in) *data_in;
    __typeof__(jbig2_complete_page) *complete_page;
    __typeof__(jbig2_page_out) *page_out;
    __typeof__(jbig2_release_page) *release_page;
} peer;

static void load_peer(const char *file) {
    void *library = dlopen(file, RTLD_NOW | RTLD_LOCAL);
    if (library == NULL)
        fail(dlerror());
    *(void **)&peer.ctx_new_imp = dlsym(library, "jbig2_ctx_new_imp");
    *(void **)&peer.ctx_free = dlsym(library, "jbig2_ctx_free");
    *(void **)&peer.make_global_ctx = dlsym(library, "jbig2_make_global_ctx");
    *(void **)&peer.global_ctx_free = dlsym(library, "jbig2_global_ctx_free");
    *(void **)&peer.data_in = dlsym(library, "jbig2_data_in");
    *(void **)&peer.complete_page = dlsym(library, "jbig2_complete_page");
    *(void **)&peer.page_out = dlsym(library, "jbig2_page_out");
    *(void **)&peer.release_page = dlsym(library, "jbig2_release_page");
}

static struct context *new_peer_context(struct globals *shared, struct bytes bytes) {
    struct context *context = peer.ctx_new_imp(NULL, OPTION_EMBEDDED, shared, NULL, NULL, ABI_MAJOR, ABI_MINOR);
    if (context == NULL || peer.data_in(context, bytes.at, bytes.length) < 0)
        fail("libjbig2dec refuses the data");
    return context;
}

static void begin_peer(struct worker *worker) {
    worker->of_peer = peer.make_global_ctx(new_peer_context(NULL, globals));
}

static void draw_by_peer(struct worker *worker) {
    struct context *context = new_peer_context(worker->of_peer, stream);
    if (peer.complete_page(context) < 0)
        fail("libjbig2dec refuses the page");
    struct image *image = peer.page_out(context);
    if (image == NULL)
        fail("libjbig2dec has no page");
    if (worker->first == NULL)
        memcpy(rows_for(worker, image->width, image->height), image->rows, size_of(image->width, image->height));
    compare(worker, image->rows);
    peer.release_page(context, image);
    peer.ctx_free(context);
}

static void end_peer(struct worker *worker) { peer.global_ctx_free(worker->of_peer); }

static const struct way by_bytes = {share_nothing, do_nothing, draw_by_bytes, do_nothing};
static const struct way by_handles = {share_globals, begin_handles, draw_by_handles, end_handles};
static const struct way by_peer = {share_nothing, begin_peer, draw_by_peer, end_peer};

static const struct way *way_of(const char *name) {
    if (strcmp(name, "bytes") == 0)
        return &by_bytes;
    if (strcmp(name, "handles") == 0)
        return &by_handles;
    load_peer(name);
    return &by_peer;
}

static void *work(void *argument) {
    struct worker *worker = argument;
    worker->way->begin(worker);
    for (unsigned i = 0; i < worker->pages; i++)
        worker->way->draw(worker);
    worker->way->end(worker);
    return NULL;
}

static struct bytes read_file(const char *name) {
    FILE *file = fopen(name, "rb");
    if (file == NULL || fseek(file, 0, SEEK_END) != 0)
        fail(name);
    struct bytes bytes = {NULL, (size_t)ftell(file)};
    bytes.at = room(bytes.length + 1);
    rewind(file);
    if (fread(bytes.at, 1, bytes.length, file) != bytes.length)
        fail(name);
    fclose(file);
    return bytes;
}

static void write_page(const struct worker *worker, const char *name) {
    FILE *file = fopen(name, "wb");
    size_t size = size_of(worker->width, worker->height);
    if (file == NULL || fprintf(file, "P4\n%u %u\n", (unsigned)worker->width, (unsigned)worker->height) < 0 ||
        fwrite(worker->first, 1, size, file) != size || fclose(file) != 0)
        fail(name);
}

static double seconds(clockid_t clock) {
    struct timespec now;
    clock_gettime(clock, &now);
    return (double)now.tv_sec + (double)now.tv_nsec / 1e9;
}

int main(int count, char **words) {
    static struct worker workers[MOST_THREADS];
    unsigned threads = count == 7 ? (unsigned)atoi(words[2]) : 0, pages = count == 7 ? (unsigned)atoi(words[3]) : 0;
    if (threads == 0 || threads > MOST_THREADS || pages < threads)
        fail("usage: documents WAY THREADS PAGES GLOBALS STREAM OUT");
    const struct way *way = way_of(words[1]);
    globals = read_file(words[4]);
    stream = read_file(words[5]);
    double passed = -seconds(CLOCK_MONOTONIC), used = -seconds(CLOCK_PROCESS_CPUTIME_ID);
    way->share(workers, threads);
    for (unsigned i = 0; i < threads; i++) {
        workers[i].way = way;
        workers[i].pages = pages / threads + (i < pages % threads);
        if (pthread_create(&workers[i].thread, NULL, work, &workers[i]) != 0)
            fail("no thread");
    }
    for (unsigned i = 0; i < threads; i++)
        pthread_join(workers[i].thread, NULL);
    passed += seconds(CLOCK_MONOTONIC);
    used += seconds(CLOCK_PROCESS_CPUTIME_ID);
    for (unsigned i = 1; i < threads; i++) {
        if (workers[i].width != workers[0].width || workers[i].height != workers[0].height)
            fail("a page of another size");
        compare(&workers[i], workers[0].first);
    }
    printf("%.6f %.6f\n", passed, used);
    write_page(&workers[0], words[6]);
    return 0;
}

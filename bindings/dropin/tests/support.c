#define _POSIX_C_SOURCE 200809L /* open_memstream */
#include "support.h"

#include <stdlib.h>
#include <string.h>

unsigned checks, failures;
struct file book, stream, shared, meant;

void check(bool holds, const char *file, int line, const char *condition) {
    __atomic_fetch_add(&checks, 1, __ATOMIC_RELAXED);
    if (!holds) {
        __atomic_fetch_add(&failures, 1, __ATOMIC_RELAXED);
        printf("%s:%d: not so: %s\n", strrchr(file, '/') == NULL ? file : strrchr(file, '/') + 1, line, condition);
    }
}

static void *take(struct allocator *allocator, size_t size) {
    struct counted *counted = (struct counted *)allocator;
    CHECK(!counted->is_gone);
    if (++counted->requests == counted->refused_request || (counted->largest != 0 && size > counted->largest))
        return NULL;
    char *block = malloc(size + counted->offset);
    if (block == NULL)
        return NULL;
    counted->held++;
    return block + counted->offset;
}

static void give_back(struct allocator *allocator, void *block) {
    struct counted *counted = (struct counted *)allocator;
    CHECK(!counted->is_gone);
    if (block == NULL)
        return;
    counted->held--;
    free((char *)block - counted->offset);
}

/* The library may do without it, and does. */
static void *resize(struct allocator *allocator, void *block, size_t size) {
    (void)allocator, (void)block, (void)size;
    CHECK(!"resize is called");
    return NULL;
}

struct counted counted_allocator(void) {
    return (struct counted){.base = {take, give_back, resize}, .offset = 8};
}

void hear(void *data, const char *text, enum severity severity, uint32_t segment) {
    struct heard *heard = data;
    CHECK(severity <= SEVERITY_FATAL);
    heard->count[severity & 3]++;
    heard->segment = segment;
    snprintf(heard->text, sizeof heard->text, "%s", text);
}

static struct file read_file(const char *name) {
    enum { MOST = 1 << 20 };
    struct file read = {malloc(MOST), 0};
    FILE *file = fopen(name, "rb");
    if (file == NULL || read.at == NULL) {
        perror(name);
        exit(2);
    }
    read.length = fread(read.at, 1, MOST, file);
    fclose(file);
    return read;
}

void read_files(char **names) {
    book = read_file(names[0]);
    stream = read_file(names[1]);
    shared = read_file(names[2]);
    meant = read_file(names[3]);
}

void free_files(void) {
    free(book.at);
    free(stream.at);
    free(shared.at);
    free(meant.at);
}

/* Whether an image is the picture that is meant, by what is written of it. */
bool is_meant(const struct image *image) {
    char *text = NULL;
    size_t size = 0;
    FILE *file = open_memstream(&text, &size);
    int answer = jbig2_image_write_pbm(image, file);
    fclose(file);
    bool is_same = answer == 0 && size == meant.length && memcmp(text, meant.at, size) == 0;
    free(text);
    return is_same;
}

struct context *embedded_context(struct allocator *allocator, struct globals *globals, struct heard *heard) {
    return jbig2_ctx_new_imp(allocator, OPTION_EMBEDDED, globals, hear, heard, ABI_MAJOR, ABI_MINOR);
}

struct context *file_context(struct allocator *allocator, struct heard *heard) {
    return jbig2_ctx_new_imp(allocator, 0, NULL, hear, heard, ABI_MAJOR, ABI_MINOR);
}

struct globals *made_globals(struct allocator *allocator, struct heard *heard) {
    struct context *context = embedded_context(allocator, NULL, heard);
    jbig2_data_in(context, shared.at, shared.length);
    return jbig2_make_global_ctx(context);
}

/* Draws all pages of a file in one context by the library for C, and prints the most bytes that it had alive at once.
 *
 * usage: peak [--strict] FILE
 *
 * The first line is that number: blocks that the library has taken and not given back, without the file's own bytes. Then
 * there is a line for each page: its error, 0 where it is drawn, and the number of the first segment that was passed over, or
 * -1. Of a page that is refused in lenient reading, that segment is the first that salvage passes over. A last line
 * "shared NUMBER" says the same of what the pages share. Of a file that is refused, "refused ERROR" is the only line after the
 * first. testing/comparison/memory.py builds and runs it.
 */
#include "hayro_jbig2.h"

#include "read_file.h"

#include <stdio.h>
#include <stdlib.h>
#include <string.h>

struct counted {
    size_t alive, most;
};

static void *take(void *user, size_t size) {
    struct counted *counted = user;
    void *block = malloc(size);
    if (block == NULL)
        return NULL;
    counted->alive += size;
    if (counted->alive > counted->most)
        counted->most = counted->alive;
    return block;
}

static void give_back(void *user, void *block, size_t size) {
    struct counted *counted = user;
    counted->alive -= size;
    free(block);
}

/* What a page came to. */
struct page {
    uint32_t error;
    long passed_over;
};

static long first_passed_over(hayro_jbig2_context *context) {
    hayro_jbig2_passed_over passed_over;
    uint32_t error = hayro_jbig2_context_get_passed_over(context, &passed_over);
    return error == HAYRO_JBIG2_OK && passed_over.count > 0 ? (long)passed_over.segment : -1;
}

static void draw(hayro_jbig2_file *file, hayro_jbig2_context *context, struct page *pages, size_t count) {
    for (size_t index = 0; index < count; index++) {
        pages[index].error = hayro_jbig2_file_draw(file, index, context);
        pages[index].passed_over = pages[index].error == HAYRO_JBIG2_OK ? first_passed_over(context) : -1;
    }
}

/* Finds out where pages were refused, in memory that is not counted. */
static long find_faults(const uint8_t *bytes, size_t length, struct page *pages, size_t count) {
    hayro_jbig2_file *file = NULL;
    hayro_jbig2_context *context = NULL;
    hayro_jbig2_left_out left_out = {0};
    if (hayro_jbig2_file_new_salvaged(NULL, HAYRO_JBIG2_NO_WORK_LIMIT, bytes, length, &file) == HAYRO_JBIG2_OK &&
        hayro_jbig2_context_new(NULL, &context) == HAYRO_JBIG2_OK) {
        hayro_jbig2_file_get_left_out(file, &left_out);
        for (size_t index = 0; index < count; index++)
            if (pages[index].error != HAYRO_JBIG2_OK && hayro_jbig2_file_draw(file, index, context) == HAYRO_JBIG2_OK)
                pages[index].passed_over = first_passed_over(context);
    }
    hayro_jbig2_context_free(context);
    hayro_jbig2_file_free(file);
    if (left_out.segments > 0)
        return (long)left_out.segment;
    return left_out.list_error != HAYRO_JBIG2_OK ? (long)left_out.list_segment : -1;
}

static int report(bool strict, const uint8_t *bytes, size_t length) {
    struct counted counted = {0, 0};
    hayro_jbig2_memory memory = {take, give_back, &counted};
    hayro_jbig2_file *file = NULL;
    hayro_jbig2_context *context = NULL;
    uint32_t error = hayro_jbig2_file_new(&memory, strict, bytes, length, &file);
    if (error == HAYRO_JBIG2_OK)
        error = hayro_jbig2_context_new(&memory, &context);
    size_t count = error == HAYRO_JBIG2_OK ? hayro_jbig2_file_page_count(file) : 0;
    struct page *pages = calloc(count + 1, sizeof *pages);
    if (pages == NULL)
        return 1;
    draw(file, context, pages, count);
    hayro_jbig2_context_free(context);
    hayro_jbig2_file_free(file);
    bool is_refused = false;
    for (size_t index = 0; index < count; index++)
        is_refused |= pages[index].error != HAYRO_JBIG2_OK;
    long shared = is_refused ? find_faults(bytes, length, pages, count) : -1;
    printf("%zu\n", counted.most);
    if (error != HAYRO_JBIG2_OK)
        printf("refused %u\n", (unsigned)error);
    for (size_t index = 0; index < count; index++)
        printf("%u %ld\n", (unsigned)pages[index].error, pages[index].passed_over);
    if (error == HAYRO_JBIG2_OK)
        printf("shared %ld\n", shared);
    free(pages);
    return counted.alive == 0 ? 0 : 1;
}

int main(int count, char **words) {
    bool strict = count == 3 && strcmp(words[1], "--strict") == 0;
    if (count != 2 + strict) {
        fputs("usage: peak [--strict] FILE\n", stderr);
        return 2;
    }
    size_t length = 0;
    uint8_t *bytes = read_file(words[1 + strict], &length);
    if (bytes == NULL) {
        perror(words[1 + strict]);
        return 2;
    }
    int status = report(strict, bytes, length);
    free(bytes);
    return status;
}

/* Draws pages by the library for C, each within a limit of work: 100 units for each pixel of the page, and 2^24 at least.
 *
 * usage: within [--strict] pbm|calls FILE INDEX    writes a page of a file as a bitmap
 *        within [--strict] pages FILE              draws all pages of a file, and prints their sizes
 *        within [--strict] embedded FILE           writes an embedded page without globals as a bitmap
 *
 * It takes the words of jbig2-decode, so that the scripts here run it in its place:
 *
 *     bindings/c/build && cc -Ibindings/c testing/comparison/within.c bindings/c/out/libhayro_jbig2.a -o within
 *     PROGRAM=$PWD/within python3 -m testing.comparison.heaviest
 */
#include "hayro_jbig2.h"

#include "read_file.h"

#include <stdio.h>
#include <stdlib.h>
#include <string.h>

static const uint64_t least = 1 << 24, for_a_pixel = 100;

/* What drawing needs: where pages come from, and the context. */
struct drawing {
    hayro_jbig2_file *file;
    hayro_jbig2_page *page;
    hayro_jbig2_context *context;
};

static uint32_t print_rows(hayro_jbig2_context *context, const hayro_jbig2_page_info *info) {
    size_t size = ((size_t)info->width + 7) / 8 * info->height;
    uint8_t *rows = malloc(size);
    uint32_t error = rows == NULL ? HAYRO_JBIG2_OUT_OF_MEMORY : hayro_jbig2_context_rows(context, 0, rows, size);
    if (error == HAYRO_JBIG2_OK) {
        printf("P4\n%u %u\n", (unsigned)info->width, (unsigned)info->height);
        fwrite(rows, 1, size, stdout);
    }
    free(rows);
    return error;
}

/* Draws the page at `index`, or the embedded one, and writes its size. */
static uint32_t draw(const struct drawing *drawing, size_t index, hayro_jbig2_page_info *info) {
    uint32_t error = drawing->file != NULL ? hayro_jbig2_file_get_info(drawing->file, index, info)
                                           : hayro_jbig2_page_get_info(drawing->page, info);
    if (error != HAYRO_JBIG2_OK)
        return error;
    uint64_t work = for_a_pixel * info->width * info->height;
    error = hayro_jbig2_context_set_work_limit(drawing->context, work < least ? least : work);
    if (error != HAYRO_JBIG2_OK)
        return error;
    return drawing->file != NULL ? hayro_jbig2_file_draw(drawing->file, index, drawing->context)
                                 : hayro_jbig2_page_draw(drawing->page, drawing->context);
}

static uint32_t print_page(const struct drawing *drawing, size_t index) {
    hayro_jbig2_page_info info;
    uint32_t error = draw(drawing, index, &info);
    return error == HAYRO_JBIG2_OK ? print_rows(drawing->context, &info) : error;
}

/* Nothing is printed unless all pages were drawn. */
static uint32_t print_pages(const struct drawing *drawing) {
    size_t count = hayro_jbig2_file_page_count(drawing->file);
    hayro_jbig2_page_info info;
    for (size_t index = 0; index < count; index++) {
        uint32_t error = draw(drawing, index, &info);
        if (error != HAYRO_JBIG2_OK)
            return error;
    }
    for (size_t index = 0; index < count; index++) {
        hayro_jbig2_file_get_info(drawing->file, index, &info);
        printf("%u %u %u\n", (unsigned)info.number, (unsigned)info.width, (unsigned)info.height);
    }
    return HAYRO_JBIG2_OK;
}

static uint32_t run(bool strict, const char *command, const char *index, const uint8_t *bytes, size_t length) {
    struct drawing drawing = {NULL, NULL, NULL};
    uint32_t error = strcmp(command, "embedded") == 0
                         ? hayro_jbig2_page_new(NULL, strict, NULL, bytes, length, &drawing.page)
                         : hayro_jbig2_file_new_within(NULL, strict, least, bytes, length, &drawing.file);
    if (error == HAYRO_JBIG2_OK)
        error = hayro_jbig2_context_new(NULL, &drawing.context);
    if (error == HAYRO_JBIG2_OK)
        error = strcmp(command, "pages") == 0 ? print_pages(&drawing) : print_page(&drawing, strtoul(index, NULL, 10));
    hayro_jbig2_context_free(drawing.context);
    hayro_jbig2_page_free(drawing.page);
    hayro_jbig2_file_free(drawing.file);
    return error;
}

int main(int count, char **words) {
    bool strict = count > 1 && strcmp(words[1], "--strict") == 0;
    count -= strict;
    words += strict;
    bool has_index = count > 1 && (strcmp(words[1], "pbm") == 0 || strcmp(words[1], "calls") == 0);
    bool has_none = count > 1 && (strcmp(words[1], "pages") == 0 || strcmp(words[1], "embedded") == 0);
    if (!(has_index && count == 4) && !(has_none && count == 3)) {
        fputs("usage: within [--strict] pbm|calls FILE INDEX, pages FILE, or embedded FILE\n", stderr);
        return 2;
    }
    size_t length = 0;
    uint8_t *bytes = read_file(words[2], &length);
    if (bytes == NULL) {
        fputs("error: the file can't be read\n", stderr);
        return 2;
    }
    uint32_t error = run(strict, words[1], has_index ? words[3] : "0", bytes, length);
    free(bytes);
    if (error != HAYRO_JBIG2_OK)
        fprintf(stderr, "error: %s\n", hayro_jbig2_error_text(error));
    return error != HAYRO_JBIG2_OK;
}

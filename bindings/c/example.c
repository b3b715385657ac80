/* Writes all pages of a JBIG2 file as PBM, one after the other, and says on standard error which are incomplete.
 * usage: example FILE > pages.pbm */
#include "hayro_jbig2.h"

#include <errno.h>
#include <stdio.h>
#include <stdlib.h>
#include <string.h>

/* Units of work for what the pages of a file share, and the least for a page: hundred bytes can ask for hours. */
#define LEAST_WORK (1u << 24)

/* The bytes of an open file up to its end, or NULL with errno. */
static uint8_t *read_all(FILE *file, size_t *length) {
    size_t room = 1 << 16;
    uint8_t *bytes = malloc(room);
    *length = 0;
    while (bytes != NULL) {
        *length += fread(bytes + *length, 1, room - *length, file);
        if (*length < room)
            break;
        room *= 2;
        uint8_t *more = realloc(bytes, room);
        if (more == NULL)
            free(bytes);
        bytes = more;
    }
    if (bytes != NULL && ferror(file)) {
        free(bytes);
        bytes = NULL;
    }
    return bytes;
}

/* The bytes of a file, or NULL with errno. */
static uint8_t *read_file(const char *name, size_t *length) {
    FILE *file = fopen(name, "rb");
    if (file == NULL)
        return NULL;
    uint8_t *bytes = read_all(file, length);
    int error = errno;
    fclose(file);
    errno = error;
    return bytes;
}

/* What the page that was drawn last lacks. */
static uint32_t report(hayro_jbig2_context *context, size_t index) {
    hayro_jbig2_passed_over passed;
    uint32_t answer = hayro_jbig2_context_get_passed_over(context, &passed);
    if (answer != HAYRO_JBIG2_OK || passed.count == 0)
        return answer;
    fprintf(stderr, "page %lu is incomplete: ", (unsigned long)index + 1);
    if (passed.segment != HAYRO_JBIG2_NO_SEGMENT_NUMBER)
        fprintf(stderr, "segment %lu: ", (unsigned long)passed.segment);
    fputs(hayro_jbig2_error_text(passed.error), stderr);
    if (passed.count > 1)
        fprintf(stderr, ", and %lu more", (unsigned long)passed.count - 1);
    fputc('\n', stderr);
    return answer;
}

/* Returns what the library does; the stream remembers an error of writing. The rows are read in pieces, so that no
 * second copy of a page is needed. */
static uint32_t write_page(hayro_jbig2_file *file, size_t index, hayro_jbig2_context *context, FILE *out) {
    hayro_jbig2_page_info info;
    uint32_t answer = hayro_jbig2_file_get_info(file, index, &info);
    if (answer == HAYRO_JBIG2_OK) {
        uint64_t work = (uint64_t)100 * info.width * info.height;
        answer = hayro_jbig2_context_set_work_limit(context, work < LEAST_WORK ? LEAST_WORK : work);
    }
    if (answer == HAYRO_JBIG2_OK)
        answer = hayro_jbig2_file_draw(file, index, context);
    if (answer == HAYRO_JBIG2_OK)
        answer = report(context, index);
    if (answer != HAYRO_JBIG2_OK)
        return answer;
    fprintf(out, "P4\n%u %u\n", (unsigned)info.width, (unsigned)info.height);
    size_t size = ((size_t)info.width + 7) / 8 * info.height;
    uint8_t rows[4096];
    for (size_t place = 0; place < size && answer == HAYRO_JBIG2_OK && !ferror(out);) {
        size_t count = size - place < sizeof rows ? size - place : sizeof rows;
        answer = hayro_jbig2_context_rows(context, place, rows, count);
        if (answer == HAYRO_JBIG2_OK)
            fwrite(rows, 1, count, out);
        place += count;
    }
    return answer;
}

/* Writes pages until one is refused or can't be written. */
static uint32_t write_pages(const uint8_t *bytes, size_t length, FILE *out) {
    hayro_jbig2_file *file = NULL;
    hayro_jbig2_context *context = NULL;
    uint32_t answer = hayro_jbig2_file_new_within(NULL, false, LEAST_WORK, bytes, length, &file);
    if (answer == HAYRO_JBIG2_OK)
        answer = hayro_jbig2_context_new(NULL, &context);
    if (answer == HAYRO_JBIG2_OK)
        for (size_t i = 0; i < hayro_jbig2_file_page_count(file) && answer == HAYRO_JBIG2_OK && !ferror(out); i++)
            answer = write_page(file, i, context, out);
    hayro_jbig2_context_free(context);
    hayro_jbig2_file_free(file);
    return answer;
}

int main(int count, char **words) {
    if (count != 2) {
        fputs("usage: example FILE\n", stderr);
        return 2;
    }
    size_t length;
    uint8_t *bytes = read_file(words[1], &length);
    if (bytes == NULL) {
        fprintf(stderr, "error: %s: %s\n", words[1], strerror(errno));
        return 1;
    }
    uint32_t answer = write_pages(bytes, length, stdout);
    free(bytes);
    if (answer != HAYRO_JBIG2_OK)
        fprintf(stderr, "error: %s: %s\n", words[1], hayro_jbig2_error_text(answer));
    /* What is written waits in a buffer, so only fclose says whether all of it could be. */
    bool failed = ferror(stdout);
    if (fclose(stdout) != 0 || failed) {
        fprintf(stderr, "error: the pages can't be written: %s\n", strerror(errno));
        return 1;
    }
    return answer != HAYRO_JBIG2_OK;
}

/* Prints what the library says of files, in the same words on each machine: all that its calls return, and a sum of the
 * rows.
 * usage: answers FILE ..
 *        answers --damaged COUNT FILE ..: of so many damaged copies, which are the same on each machine */
#include "hayro_jbig2.h"

#include <stdio.h>
#include <stdlib.h>
#include <string.h>

enum reading { LENIENT, STRICT, SALVAGED, READINGS };
static const uint64_t WORK = (uint64_t)1 << 24;

struct file {
    uint8_t *bytes;
    size_t length;
};

static struct file read_file(const char *name) {
    struct file file = {NULL, 0};
    FILE *stream = fopen(name, "rb");
    long length = -1;
    if (stream != NULL && fseek(stream, 0, SEEK_END) == 0)
        length = ftell(stream);
    if (length >= 0 && fseek(stream, 0, SEEK_SET) == 0)
        file.bytes = (uint8_t *)malloc((size_t)length + 1);
    if (file.bytes != NULL)
        file.length = fread(file.bytes, 1, (size_t)length, stream);
    if (file.bytes == NULL || file.length != (size_t)length) {
        fprintf(stderr, "answers: %s could not be read\n", name);
        exit(2);
    }
    fclose(stream);
    return file;
}

static uint64_t sum_of(const uint8_t *bytes, size_t length) {
    uint64_t sum = UINT64_C(0xCBF29CE484222325);
    size_t i;
    for (i = 0; i < length; i++)
        sum = (sum ^ bytes[i]) * UINT64_C(0x100000001B3);
    return sum;
}

/* What is printed: to standard output, or into a sum. */
static bool is_summed;
static uint64_t sum;

static void say(uint64_t number) {
    if (is_summed)
        sum = (sum ^ number) * UINT64_C(0x100000001B3) + 1;
    else
        printf(" %llx", (unsigned long long)number);
}

static void say_left_out(const hayro_jbig2_left_out *left_out) {
    say(left_out->segments);
    say(left_out->segment);
    say(left_out->error);
    say(left_out->pages);
    say(left_out->page_error);
    say(left_out->list_segment);
    say(left_out->list_error);
}

/* What a context holds after a page was drawn. */
static void say_drawn(uint32_t answer, hayro_jbig2_context *context, const hayro_jbig2_page_info *info) {
    hayro_jbig2_passed_over passed_over;
    uint64_t left;
    const size_t length = ((size_t)info->width + 7) / 8 * info->height;
    uint8_t *rows;
    say(answer);
    if (answer != HAYRO_JBIG2_OK)
        return;
    say(info->number);
    say(info->width);
    say(info->height);
    say(hayro_jbig2_context_get_passed_over(context, &passed_over));
    say(passed_over.count);
    say(passed_over.segment);
    say(passed_over.error);
    say(hayro_jbig2_context_get_work_left(context, &left));
    say(left);
    rows = (uint8_t *)malloc(length + 1);
    if (rows == NULL)
        abort();
    say(hayro_jbig2_context_rows(context, 0, rows, length + 1));
    say(hayro_jbig2_context_rows(context, 0, rows, length));
    say(sum_of(rows, length));
    free(rows);
}

static void say_file(struct file file, enum reading reading, hayro_jbig2_context *context) {
    hayro_jbig2_file *read = NULL;
    hayro_jbig2_page_info info;
    hayro_jbig2_left_out left_out;
    size_t index, count;
    uint32_t answer;
    if (reading == SALVAGED)
        answer = hayro_jbig2_file_new_salvaged(NULL, WORK, file.bytes, file.length, &read);
    else
        answer = hayro_jbig2_file_new_within(NULL, reading == STRICT, WORK, file.bytes, file.length, &read);
    say(answer);
    if (answer != HAYRO_JBIG2_OK)
        return;
    count = hayro_jbig2_file_page_count(read);
    say(count);
    say(hayro_jbig2_file_get_left_out(read, &left_out));
    say_left_out(&left_out);
    for (index = 0; index < count; index++) {
        say(hayro_jbig2_file_get_info(read, index, &info));
        say_drawn(hayro_jbig2_file_draw(read, index, context), context, &info);
    }
    say(hayro_jbig2_file_get_info(read, count, &info));
    hayro_jbig2_file_free(read);
}

/* The bytes as an embedded page, after the file's header, with themselves as globals. */
static void say_page(struct file file, enum reading reading, hayro_jbig2_context *context) {
    enum { HEADER = 13 };
    const size_t skipped = file.length < (size_t)HEADER ? file.length : (size_t)HEADER, length = file.length - skipped;
    const uint8_t *stream = file.bytes + skipped;
    hayro_jbig2_globals *globals = NULL;
    hayro_jbig2_page *page = NULL;
    hayro_jbig2_page_info info = {0, 0, 0};
    hayro_jbig2_left_out left_out;
    uint32_t answer;
    if (reading == SALVAGED)
        answer = hayro_jbig2_globals_new_salvaged(NULL, WORK, stream, length / 2, &globals);
    else
        answer = hayro_jbig2_globals_new_within(NULL, reading == STRICT, WORK, stream, length / 2, &globals);
    say(answer);
    if (reading == SALVAGED)
        answer = hayro_jbig2_page_new_salvaged(NULL, globals, stream, length, &page);
    else
        answer = hayro_jbig2_page_new(NULL, reading == STRICT, globals, stream, length, &page);
    hayro_jbig2_globals_free(globals);
    say(answer);
    if (answer == HAYRO_JBIG2_OK) {
        say(hayro_jbig2_page_get_left_out(page, &left_out));
        say_left_out(&left_out);
        say(hayro_jbig2_page_get_info(page, &info));
        answer = hayro_jbig2_page_draw(page, context);
        hayro_jbig2_page_free(page);
        say_drawn(answer, context, &info);
    }
}

static void say_all(struct file file, enum reading reading) {
    hayro_jbig2_context *context = NULL;
    if (hayro_jbig2_context_new(NULL, &context) != HAYRO_JBIG2_OK ||
        hayro_jbig2_context_set_work_limit(context, WORK) != HAYRO_JBIG2_OK)
        abort();
    say_file(file, reading, context);
    say_page(file, reading, context);
    hayro_jbig2_context_free(context);
}

/* The first page by the calls on bytes, where it is of a usual size. */
static void say_bytes(struct file file) {
    uint32_t width = 0, height = 0;
    size_t length;
    uint8_t *image;
    uint32_t answer = hayro_jbig2_page_size(false, file.bytes, file.length, 0, &width, &height);
    say(answer);
    if (answer != HAYRO_JBIG2_OK || (uint64_t)width * height > 1 << 22)
        return;
    length = (size_t)width * height;
    image = (uint8_t *)calloc(length, 1);
    if (image == NULL)
        abort();
    say(hayro_jbig2_page_image(false, file.bytes, file.length, 0, image, length));
    say(sum_of(image, length));
    length = ((size_t)width + 7) / 8 * height;
    memset(image, 0, length);
    say(hayro_jbig2_page_packed(false, file.bytes, file.length, 0, image, length));
    say(sum_of(image, length));
    free(image);
}

static uint32_t random_number(void) {
    static uint32_t state = 2463534242u;
    state ^= state << 13;
    state ^= state >> 17;
    state ^= state << 5;
    return state;
}

/* A copy with some bytes changed, some of them cut off at its end. */
static struct file damaged(struct file file) {
    struct file copy = {(uint8_t *)malloc(file.length + 1), file.length};
    uint32_t faults = 1 + random_number() % 4;
    if (copy.bytes == NULL)
        abort();
    memcpy(copy.bytes, file.bytes, file.length);
    while (faults-- > 0 && copy.length > 0) {
        const size_t place = random_number() % copy.length;
        if (random_number() % 16 == 0)
            copy.length = place;
        else
            copy.bytes[place] = (uint8_t)(random_number() >> 8);
    }
    return copy;
}

static void say_damaged(unsigned long count, char **names, int files) {
    unsigned long i;
    is_summed = true;
    for (i = 0; i < count; i++) {
        const struct file file = read_file(names[i % (unsigned)files]), copy = damaged(file);
        say_all(copy, (enum reading)(i % READINGS));
        if (i % 100 == 99 || i + 1 == count)
            printf("%lu %llx\n", i + 1, (unsigned long long)sum);
        free(copy.bytes);
        free(file.bytes);
    }
}

int main(int count, char **words) {
    int i, reading;
    if (count > 3 && strcmp(words[1], "--damaged") == 0) {
        say_damaged(strtoul(words[2], NULL, 10), words + 3, count - 3);
        return 0;
    }
    for (i = 1; i < count; i++) {
        const struct file file = read_file(words[i]);
        printf("%d", i);
        for (reading = 0; reading < READINGS; reading++)
            say_all(file, (enum reading)reading);
        say_bytes(file);
        printf("\n");
        free(file.bytes);
    }
    return 0;
}

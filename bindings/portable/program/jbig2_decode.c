/* The program jbig2-decode over the library for C, for machines that the proved program is not made for. Its words, its
 * statuses and what it prints are those of crates/jbig2_program (specs/Words.antt, specs/Printed.antt). */
#include "hayro_jbig2.h"

#include <signal.h>
#include <stdio.h>
#include <stdlib.h>
#include <string.h>
#if defined(_WIN32)
#include <fcntl.h>
#include <io.h>
#endif

enum task { PAGES, EMBEDDED, CALLS, PBM };

struct request {
    bool strict;
    enum task task;
    const char *file, *index; /* no index for PAGES and EMBEDDED */
};

/* Why a run ends before its end, besides what the library returns. */
enum { UNREADABLE = 1000, UNWRITABLE };

struct page {
    hayro_jbig2_page_info info;
    size_t row_bytes, length;
    uint8_t *rows;
};

/* The bytes that may follow in UTF-8 (RFC 3629) after a first byte above 0x7F, and the range of the first of them. */
static int following(uint8_t first, uint8_t *least, uint8_t *most) {
    *least = first == 0xE0 ? 0xA0 : first == 0xF0 ? 0x90 : 0x80;
    *most = first == 0xED ? 0x9F : first == 0xF4 ? 0x8F : 0xBF;
    if (first < 0xC2 || first > 0xF4)
        return -1;
    return first < 0xE0 ? 1 : first < 0xF0 ? 2 : 3;
}

/* Whether a word is text. Other words are none of this program. */
static bool is_text(const char *word) {
    const uint8_t *byte = (const uint8_t *)word;
    while (*byte != 0) {
        uint8_t least, most;
        int count = *byte < 0x80 ? 0 : following(*byte, &least, &most);
        byte++;
        if (count < 0)
            return false;
        for (; count > 0; count--, byte++) {
            if (*byte < least || *byte > most)
                return false;
            least = 0x80;
            most = 0xBF;
        }
    }
    return true;
}

static bool is_index(const char *word) { return *word != 0 && word[strspn(word, "0123456789")] == 0; }

/* Whether the words, of which `count` are there, are those of a run. */
static bool read_words(int count, char **words, struct request *request) {
    static const char *const names[] = {"pages", "embedded", "calls", "pbm"};
    int i;
    for (i = 0; i < count; i++)
        if (!is_text(words[i]))
            return false;
    request->strict = count > 0 && strcmp(words[0], "--strict") == 0;
    if (request->strict) {
        words++;
        count--;
    }
    if (count != 2 && !(count == 3 && is_index(words[2])))
        return false;
    request->file = words[1];
    request->index = count == 3 ? words[2] : NULL;
    for (i = PAGES; i <= PBM; i++)
        if (strcmp(words[0], names[i]) == 0) {
            request->task = (enum task)i;
            return (count == 3) == (i >= CALLS);
        }
    return false;
}

/* All bytes of a file. */
static uint32_t read_file(const char *name, uint8_t **bytes, size_t *length) {
    size_t room = 1 << 16;
    FILE *file = fopen(name, "rb");
    uint32_t answer = HAYRO_JBIG2_OK;
    if (file == NULL)
        return UNREADABLE;
    *length = 0;
    *bytes = (uint8_t *)malloc(room);
    while (*bytes != NULL) {
        uint8_t *more;
        *length += fread(*bytes + *length, 1, room - *length, file);
        if (*length < room)
            break;
        more = room > SIZE_MAX / 2 ? NULL : (uint8_t *)realloc(*bytes, 2 * room);
        if (more == NULL)
            free(*bytes);
        *bytes = more;
        room *= 2;
    }
    if (*bytes == NULL)
        answer = HAYRO_JBIG2_OUT_OF_MEMORY;
    else if (ferror(file))
        answer = UNREADABLE;
    fclose(file);
    return answer;
}

/* The page of a file that decimal digits name. No file has as many pages as a number that a size_t can't hold. */
static size_t index_of(const char *digits) {
    size_t index = 0;
    for (; *digits != 0; digits++) {
        const size_t digit = (size_t)(*digits - '0');
        if (index > (SIZE_MAX - digit) / 10)
            return SIZE_MAX;
        index = 10 * index + digit;
    }
    return index;
}

/* Takes the rows of the page that was drawn in a context. */
static uint32_t take_rows(hayro_jbig2_context *context, struct page *page) {
    page->row_bytes = ((size_t)page->info.width + 7) / 8;
    page->length = page->row_bytes * page->info.height;
    page->rows = (uint8_t *)malloc(page->length);
    if (page->rows == NULL)
        return HAYRO_JBIG2_OUT_OF_MEMORY;
    return hayro_jbig2_context_rows(context, 0, page->rows, page->length);
}

static uint32_t draw_embedded(bool strict, const uint8_t *bytes, size_t length, hayro_jbig2_context *context,
                              struct page *page) {
    hayro_jbig2_page *read = NULL;
    uint32_t answer = hayro_jbig2_page_new(NULL, strict, NULL, bytes, length, &read);
    if (answer == HAYRO_JBIG2_OK)
        answer = hayro_jbig2_page_get_info(read, &page->info);
    if (answer == HAYRO_JBIG2_OK)
        answer = hayro_jbig2_page_draw(read, context);
    hayro_jbig2_page_free(read);
    return answer;
}

static uint32_t draw_of_file(const struct request *request, hayro_jbig2_file *file, hayro_jbig2_context *context,
                             struct page *page) {
    const size_t index = index_of(request->index);
    const uint32_t answer = hayro_jbig2_file_get_info(file, index, &page->info);
    return answer == HAYRO_JBIG2_OK ? hayro_jbig2_file_draw(file, index, context) : answer;
}

static void print_pixels(uint8_t byte, unsigned count) {
    unsigned place;
    for (place = 0; place < count; place++)
        fputs(byte << place & 0x80 ? "push_pixel true\n" : "push_pixel false\n", stdout);
}

/* Prints the calls on a Decoder that draw a row: bytes of one colour are chunks, as many in one call as there are. */
static void print_row(const uint8_t *row, uint32_t width) {
    const size_t whole = width / 8;
    size_t place = 0;
    while (place < whole) {
        const uint8_t byte = row[place];
        size_t count = 1;
        if (byte != 0 && byte != 0xFF) {
            print_pixels(byte, 8);
        } else {
            while (place + count < whole && row[place + count] == byte)
                count++;
            printf("push_pixel_chunk %s %lu\n", byte != 0 ? "true" : "false", (unsigned long)count);
        }
        place += count;
    }
    if (width % 8 > 0)
        print_pixels(row[whole], width % 8);
    puts("next_line");
}

static void print_page(enum task task, const struct page *page) {
    size_t place;
    if (task == PBM) {
        printf("P4\n%lu %lu\n", (unsigned long)page->info.width, (unsigned long)page->info.height);
        fwrite(page->rows, 1, page->length, stdout);
        return;
    }
    for (place = 0; place < page->length && !ferror(stdout); place += page->row_bytes)
        print_row(page->rows + place, page->info.width);
}

static uint32_t print_pages(hayro_jbig2_file *file) {
    const size_t count = hayro_jbig2_file_page_count(file);
    size_t index;
    for (index = 0; index < count; index++) {
        hayro_jbig2_page_info info;
        const uint32_t answer = hayro_jbig2_file_get_info(file, index, &info);
        if (answer != HAYRO_JBIG2_OK)
            return answer;
        printf("%lu %lu %lu\n", (unsigned long)info.number, (unsigned long)info.width, (unsigned long)info.height);
    }
    return HAYRO_JBIG2_OK;
}

/* Draws the page that is asked for, whole before any of it is printed. */
static uint32_t print_drawn(const struct request *request, const uint8_t *bytes, size_t length,
                            hayro_jbig2_file *file) {
    hayro_jbig2_context *context = NULL;
    struct page page = {{0, 0, 0}, 0, 0, NULL};
    uint32_t answer = hayro_jbig2_context_new(NULL, &context);
    if (answer == HAYRO_JBIG2_OK)
        answer = file == NULL ? draw_embedded(request->strict, bytes, length, context, &page)
                              : draw_of_file(request, file, context, &page);
    if (answer == HAYRO_JBIG2_OK)
        answer = take_rows(context, &page);
    hayro_jbig2_context_free(context);
    if (answer == HAYRO_JBIG2_OK)
        print_page(request->task, &page);
    free(page.rows);
    return answer;
}

static uint32_t print_task(const struct request *request, const uint8_t *bytes, size_t length) {
    hayro_jbig2_file *file = NULL;
    uint32_t answer = HAYRO_JBIG2_OK;
    if (request->task != EMBEDDED)
        answer = hayro_jbig2_file_new(NULL, request->strict, bytes, length, &file);
    if (answer == HAYRO_JBIG2_OK)
        answer = request->task == PAGES ? print_pages(file) : print_drawn(request, bytes, length, file);
    hayro_jbig2_file_free(file);
    return answer;
}

static uint32_t run(const struct request *request) {
    uint8_t *bytes = NULL;
    size_t length;
    uint32_t answer = read_file(request->file, &bytes, &length);
    if (answer == HAYRO_JBIG2_OK) {
        answer = print_task(request, bytes, length);
        free(bytes);
        if (answer == HAYRO_JBIG2_OK && (fflush(stdout) != 0 || ferror(stdout)))
            answer = UNWRITABLE;
    }
    return answer;
}

int main(int count, char **words) {
    struct request request;
    uint32_t answer;
#if defined(SIGPIPE)
    /* An output that nobody reads is a fault like others. */
    signal(SIGPIPE, SIG_IGN);
#endif
#if defined(_WIN32)
    _setmode(_fileno(stdout), _O_BINARY);
    _setmode(_fileno(stderr), _O_BINARY);
#endif
    if (!read_words(count - 1, words + 1, &request)) {
        fputs("usage: jbig2-decode [--strict] pages|embedded FILE | calls|pbm FILE INDEX\n", stderr);
        return 2;
    }
    answer = run(&request);
    if (answer == UNREADABLE)
        fputs("error: cannot read file\n", stderr);
    else if (answer == HAYRO_JBIG2_NO_SUCH_PAGE)
        fputs("error: no such page\n", stderr);
    else if (answer != HAYRO_JBIG2_OK && answer != UNWRITABLE)
        fprintf(stderr, "error: %s\n", hayro_jbig2_error_text(answer));
    return answer != HAYRO_JBIG2_OK;
}

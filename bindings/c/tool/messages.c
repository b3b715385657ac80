#include "platform.h"

#include "messages.h"

#include "temporary.h"

#include <pthread.h>
#include <stdarg.h>
#include <stdio.h>
#include <stdlib.h>
#include <string.h>
#include <unistd.h>

static bool shows_progress;

enum status worse_of(enum status one, enum status other) {
    static const enum status order[] = {WRONG_WORDS, NOT_DONE, OVER_LIMIT, INCOMPLETE};
    for (size_t i = 0; i < sizeof order / sizeof *order; i++)
        if (one == order[i] || other == order[i])
            return order[i];
    return ALL_WHOLE;
}

/* Other threads go on until the end, so nothing of theirs is freed or flushed. Those that want memory too wait here. */
void end_without_memory(void) {
    static pthread_mutex_t ending = PTHREAD_MUTEX_INITIALIZER;
    static char text[] = PROGRAM ": out of memory\n";
    pthread_mutex_lock(&ending);
    remove_temporaries_at_end();
    print_messages(&(struct text){text, sizeof text - 1, 0});
    _exit(NOT_DONE);
}

void *larger_room(void *block, size_t size) {
    void *room = realloc(block, size > 0 ? size : 1);
    if (room == NULL)
        end_without_memory();
    return room;
}

void *room_for(size_t size) { return larger_room(NULL, size); }

/* Where `length` bytes more and a null byte can be written. */
static char *make_room(struct text *text, size_t length) {
    if (text->room - text->length <= length) {
        text->room = 2 * text->room + length + 1;
        text->at = larger_room(text->at, text->room);
    }
    return text->at + text->length;
}

void add_bytes(struct text *text, const char *bytes, size_t length) {
    char *added = make_room(text, length);
    memcpy(added, bytes, length);
    added[length] = '\0';
    text->length += length;
}

/* A line ends where a format does: names of files and texts of a PDF file may have ends of lines too. */
static void keep_in_line(char *added, size_t length, const char *format) {
    size_t size = strlen(format);
    bool ends_line = size > 0 && format[size - 1] == '\n';
    for (size_t i = 0; i + ends_line < length; i++)
        if (added[i] == '\n')
            added[i] = '?';
}

static void add_arguments(struct text *text, const char *format, va_list arguments) {
    va_list again;
    va_copy(again, arguments);
    int length = vsnprintf(NULL, 0, format, again);
    va_end(again);
    if (length < 0)
        return;
    char *added = make_room(text, (size_t)length);
    text->length += (size_t)vsnprintf(added, (size_t)length + 1, format, arguments);
    keep_in_line(added, (size_t)length, format);
}

void add_text(struct text *text, const char *format, ...) {
    va_list arguments;
    va_start(arguments, format);
    add_arguments(text, format, arguments);
    va_end(arguments);
}

void free_text(struct text *text) {
    free(text->at);
    *text = (struct text){NULL, 0, 0};
}

bool has_progress(void) { return isatty(STDERR_FILENO); }

bool is_control(const char *start, const char *at) {
    unsigned char byte = (unsigned char)*at, before = at > start ? (unsigned char)at[-1] : 0;
    return byte < ' ' || byte == 127 || (before == 0xC2 && byte >= 0x80 && byte < 0xA0);
}

/* Names of files and texts of a PDF file may have bytes that a terminal obeys. */
void print_messages(const struct text *text) {
    if (text->length == 0)
        return;
    if (shows_progress)
        fputs("\r\033[K", stderr);
    shows_progress = false;
    for (const char *at = text->at; at < text->at + text->length; at++)
        putc(*at != '\n' && is_control(text->at, at) ? '?' : *at, stderr);
    fflush(stderr);
}

void print_progress(size_t done, size_t all) {
    if (done < all) {
        fprintf(stderr, "\r\033[K%zu of %zu pages", done, all);
        shows_progress = true;
    } else if (shows_progress) {
        fputs("\r\033[K", stderr);
        shows_progress = false;
    }
    fflush(stderr);
}

void complain(const char *format, ...) {
    struct text line = {NULL, 0, 0};
    va_list arguments;
    add_text(&line, PROGRAM ": ");
    va_start(arguments, format);
    add_arguments(&line, format, arguments);
    va_end(arguments);
    add_text(&line, "\n");
    print_messages(&line);
    free_text(&line);
}

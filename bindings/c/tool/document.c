#include "platform.h"

#include "document.h"

#include "globals.h"
#include "jbig2_file.h"
#include "pdf.h"

#include <stdlib.h>

uint64_t work_for(const struct reading *reading, uint64_t pixels) {
    enum { LEAST = 1 << 24, FOR_A_PIXEL = 100, LONGEST_SIDE = 65535 };
    /* What pages share doesn't need more than the largest page, however many a file states. */
    const uint64_t most = (uint64_t)LONGEST_SIDE * LONGEST_SIDE * FOR_A_PIXEL;
    if (reading->has_own_work)
        return reading->work;
    if (pixels > most / FOR_A_PIXEL)
        return most;
    return pixels * FOR_A_PIXEL < LEAST ? LEAST : pixels * FOR_A_PIXEL;
}

void add_globals(struct document *document, struct globals *globals) {
    size_t count = document->globals_count;
    /* The room doubles with each power of two. */
    if ((count & (count - 1)) == 0)
        document->globals = larger_room(document->globals, (2 * count + 1) * sizeof *document->globals);
    document->globals[document->globals_count++] = globals;
}

/* Globals of several files are decoded once, so what they may take can't depend on the page that happens to be drawn
 * first. It is what the first page may take, for each file. */
static void note_pixels(const struct document *document, struct globals *globals) {
    struct segment_list list;
    if (globals->has_pixels)
        return;
    list_segments(&list, document->bytes.at, document->bytes.length, 0, false);
    globals->pixels = stated_pixels(&list) * globals->files;
    globals->has_pixels = true;
    free_segments(&list);
}

static enum status open_embedded(struct document *document, struct globals *globals) {
    document->count = document->pages = 1;
    document->images = room_for(sizeof *document->images);
    *document->images = (struct image){.page = 1, .all = 1, .globals = globals};
    if (globals != NULL) {
        note_pixels(document, globals);
        add_globals(document, globals);
        globals->pages++;
    }
    return ALL_WHOLE;
}

static enum status refuse(const struct document *document, struct text *messages) {
    const char *name = name_of_kind(document->kind, &document->bytes);
    if (document->kind == KIND_GLOBALS)
        add_text(messages, "%s: globals without a page: name the embedded page before them\n", document->name);
    else
        add_text(messages, "%s: neither a JBIG2 file, nor an embedded page, nor a PDF file: %s\n", document->name,
                 name);
    return NOT_DONE;
}

enum status open_document(struct document *document, const char *word, struct bytes bytes, struct globals *globals,
                          const char *password, struct text *messages) {
    struct reading reading = document->reading;
    *document = (struct document){.word = word, .name = shown_name(word), .reading = reading, .bytes = bytes};
    document->kind = kind_of(&bytes);
    pthread_mutex_init(&document->lock, NULL);
    switch (document->kind) {
    case KIND_FILE:
        return open_file(document, messages);
    case KIND_PDF:
        return open_pdf(document, password, messages);
    case KIND_EMBEDDED:
        return open_embedded(document, globals);
    default:
        return refuse(document, messages);
    }
}

void close_document(struct document *document) {
    close_file(document);
    close_pdf(document);
    for (size_t i = 0; i < document->globals_count; i++)
        if (!document->globals[i]->is_of_several_files)
            free_globals(document->globals[i]);
    free(document->globals);
    free(document->images);
    free_bytes(&document->bytes);
    pthread_mutex_destroy(&document->lock);
}

void add_place(struct text *text, const struct document *document, size_t index) {
    const struct image *image = &document->images[index];
    add_text(text, "%s: page %zu: ", document->name, image->page);
    if (image->all > 1)
        add_text(text, "image %zu: ", image->nth);
}

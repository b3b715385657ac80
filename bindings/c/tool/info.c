#include "platform.h"

#include "info.h"

#include "globals.h"
#include "inputs.h"
#include "listing.h"

#include <stdio.h>
#include <stdlib.h>
#include <string.h>

const char *name_of_state(enum status status) {
    switch (status) {
    case ALL_WHOLE:
        return "whole";
    case INCOMPLETE:
        return "incomplete";
    case OVER_LIMIT:
        return "over the limit";
    default:
        return "refused";
    }
}

static void note_faults(struct listing *listing, const struct faults *faults) {
    size_t count = listing->found_count + faults->count;
    listing->found = larger_room(listing->found, count * sizeof *listing->found);
    for (size_t i = 0; i < faults->count; i++)
        listing->found[listing->found_count++] = faults->at[i];
}

/* The segments of a page's own stream. The source must stay open. */
static void list_stream(struct document *document, size_t index, struct source *source, struct segment_list *list) {
    struct fault fault;
    *list = (struct segment_list){.bytes = NULL};
    bool is_open = open_source(document, index, source, &fault);
    if (document->kind != KIND_FILE && (is_open || source->stream.at != NULL))
        list_segments(list, source->stream.at, source->stream.length, 0, false);
}

static enum status list_page(const struct printer *printer, struct listing *listing, struct painter *painter,
                             struct document *document, size_t index) {
    struct drawn drawn;
    struct source source;
    struct segment_list list;
    draw_page(painter, document, index, &drawn);
    if (document->kind == KIND_FILE)
        note_faults(listing, &drawn.faults);
    list_stream(document, index, &source, &list);
    printer->page(listing, index, &drawn, document->kind == KIND_FILE ? NULL : &list);
    free_segments(&list);
    close_source(&source);
    leave_globals(document->images[index].globals);
    return drawn.status;
}

static enum status list_document(const struct printer *printer, struct document *document, const struct words *words) {
    struct listing listing = {.document = document};
    struct faults faults = {.count = 0};
    struct painter painter;
    enum status status = ALL_WHOLE;
    find_faults_of_file(document, &faults);
    note_faults(&listing, &faults);
    printer->begin(&listing);
    open_painter(&painter);
    /* Where the list can't be written, nobody waits for the rest. */
    for (size_t i = 0; i < document->count && !ferror(stdout); i++)
        if (is_wanted(words, document->images[i].page))
            status = worse_of(status, list_page(printer, &listing, &painter, document, i));
    close_painter(&painter);
    printer->end(&listing);
    free(listing.found);
    return status;
}

enum status print_info(const struct words *words) {
    const struct printer *printer = words->is_json ? &json_printer : &table_printer;
    struct inputs inputs;
    struct document document;
    struct text messages = {NULL, 0, 0};
    bool is_open = open_inputs(&inputs, words, &messages);
    enum status all = is_open ? ALL_WHOLE : NOT_DONE, status;
    enum opened opened;
    while (is_open && !ferror(stdout) && (opened = next_document(&inputs, &document, &messages, &status)) != NO_INPUT) {
        all = worse_of(all, status);
        /* What is wrong with a file is in its list. */
        bool is_listed = opened == OPENED || (opened == REFUSED && document.kind == KIND_FILE);
        if (is_listed) {
            free_text(&messages);
            all = worse_of(all, list_document(printer, &document, words));
            all = worse_of(all, find_missing_pages(words, &document, &messages));
        }
        print_messages(&messages);
        free_text(&messages);
        if (opened != NOT_READ)
            close_document(&document);
    }
    printer->finish();
    print_messages(&messages);
    free_text(&messages);
    close_inputs(&inputs);
    return all;
}

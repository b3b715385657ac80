#include "platform.h"

#include "jbig2_file.h"

#include "faults.h"

#include <stdlib.h>

static uint32_t read_file(struct document *document, bool is_strict, struct reader *reader) {
    const struct reading *reading = &document->reading;
    const struct bytes *bytes = &document->bytes;
    uint64_t work = work_for(reading, stated_pixels(&document->list));
    if (is_strict || reading->way == LENIENT)
        return hayro_jbig2_file_new_within(&reader->budget.memory, is_strict, work, bytes->at, bytes->length,
                                           &reader->file);
    return hayro_jbig2_file_new_salvaged(&reader->budget.memory, work, bytes->at, bytes->length, &reader->file);
}

static void free_reader(struct reader *reader) {
    hayro_jbig2_globals_free(reader->shared);
    hayro_jbig2_file_free(reader->file);
    close_budget(&reader->budget);
    free(reader);
}

static struct reader **free_readers(struct document *document, bool is_strict) {
    return is_strict ? &document->strict_readers : &document->other_readers;
}

struct reader *take_reader(struct document *document, bool is_strict, uint32_t *answer) {
    pthread_mutex_lock(&document->lock);
    struct reader **first = free_readers(document, is_strict), *reader = *first;
    if (reader != NULL)
        *first = reader->next;
    pthread_mutex_unlock(&document->lock);
    *answer = HAYRO_JBIG2_OK;
    if (reader != NULL)
        return reader;
    reader = room_for(sizeof *reader);
    *reader = (struct reader){.file = NULL};
    open_budget(&reader->budget, document->reading.memory);
    *answer = read_file(document, is_strict, reader);
    *answer = precise_answer(*answer, &reader->budget);
    if (*answer == HAYRO_JBIG2_OK)
        return reader;
    free_reader(reader);
    return NULL;
}

void give_back_reader(struct document *document, bool is_strict, struct reader *reader) {
    pthread_mutex_lock(&document->lock);
    struct reader **first = free_readers(document, is_strict);
    reader->next = *first;
    *first = reader;
    pthread_mutex_unlock(&document->lock);
}

/* The pages, with the numbers by which messages and names of files call them: 1, 2 and so on. */
static void list_pages(struct document *document, struct reader *reader) {
    document->count = document->pages = hayro_jbig2_file_page_count(reader->file);
    document->images = room_for(document->count * sizeof *document->images);
    for (size_t i = 0; i < document->count; i++)
        document->images[i] = (struct image){.page = i + 1, .all = 1};
}

static enum status refuse_file(struct document *document, uint32_t answer, struct text *messages) {
    struct fault fault = fault_of_list(&document->list, answer);
    document->refusal = answer;
    add_text(messages, "%s: ", document->name);
    add_fault_text(messages, &fault);
    add_text(messages, "%s\n", hint_after(answer, document->reading.way));
    return is_of_limits(answer) ? OVER_LIMIT : NOT_DONE;
}

enum status open_file(struct document *document, struct text *messages) {
    bool is_whole = read_file_header(&document->header, document->bytes.at, document->bytes.length);
    list_segments(&document->list, document->bytes.at, document->bytes.length, document->header.size,
                  is_whole && !document->header.is_sequential);
    bool is_strict = true;
    uint32_t answer;
    struct reader *reader = take_reader(document, true, &answer);
    document->strict_answer = answer;
    if (reader == NULL && document->reading.way != STRICT && !is_of_limits(answer)) {
        is_strict = false;
        reader = take_reader(document, false, &answer);
    }
    if (reader == NULL)
        return refuse_file(document, answer, messages);
    list_pages(document, reader);
    hayro_jbig2_file_get_left_out(reader->file, &document->left_out);
    give_back_reader(document, is_strict, reader);
    struct faults faults = {.count = 0};
    struct text place = {NULL, 0, 0};
    add_text(&place, "%s: ", document->name);
    find_faults_of_file(document, &faults);
    add_fault_lines(messages, place.at, &faults, "");
    free_text(&place);
    return faults.count > 0 ? INCOMPLETE : ALL_WHOLE;
}

static void free_list(struct reader *reader) {
    while (reader != NULL) {
        struct reader *next = reader->next;
        free_reader(reader);
        reader = next;
    }
}

void close_file(struct document *document) {
    free_list(document->strict_readers);
    free_list(document->other_readers);
    free_segments(&document->list);
}

#include "platform.h"

#include "drawing.h"

#include "jbig2_file.h"

void open_painter(struct painter *painter) {
    *painter = (struct painter){.context = NULL};
    open_budget(&painter->budget, SIZE_MAX);
}

void close_painter(struct painter *painter) {
    hayro_jbig2_context_free(painter->context);
    close_budget(&painter->budget);
}

/* With a limit of memory each page has a new context, so that what was drawn before doesn't count. */
static uint32_t prepare(struct painter *painter, const struct reading *reading) {
    if (reading->memory < SIZE_MAX) {
        hayro_jbig2_context_free(painter->context);
        painter->context = NULL;
    }
    painter->budget.limit = reading->memory;
    return painter->context != NULL ? HAYRO_JBIG2_OK
                                    : hayro_jbig2_context_new(&painter->budget.memory, &painter->context);
}

static uint32_t set_limit(struct painter *painter, const struct reading *reading, const hayro_jbig2_page_info *info) {
    uint64_t work = work_for(reading, (uint64_t)info->width * info->height);
    return hayro_jbig2_context_set_work_limit(painter->context, work);
}

static void note_size(struct drawn *drawn, const hayro_jbig2_page_info *info, const struct segment_list *list) {
    drawn->number = info->number;
    drawn->width = info->width;
    drawn->height = info->height;
    drawn->has_information = page_information_of(list, info->number, &drawn->information);
}

static uint32_t draw_of_file(const struct attempt *attempt, struct drawn *drawn) {
    struct document *document = attempt->document;
    hayro_jbig2_page_info info;
    uint32_t answer;
    struct reader *reader = take_reader(document, attempt->is_strict, &answer);
    if (reader == NULL)
        return answer;
    answer = hayro_jbig2_file_get_info(reader->file, attempt->index, &info);
    if (answer == HAYRO_JBIG2_OK)
        answer = set_limit(attempt->painter, &document->reading, &info);
    if (answer == HAYRO_JBIG2_OK) {
        note_size(drawn, &info, attempt->list);
        answer = hayro_jbig2_file_draw(reader->file, attempt->index, attempt->painter->context);
    }
    give_back_reader(document, attempt->is_strict, reader);
    return answer;
}

static uint32_t new_page(const struct attempt *attempt, hayro_jbig2_page **page) {
    const hayro_jbig2_memory *memory = &attempt->painter->budget.memory;
    const struct source *source = attempt->source;
    size_t length = size_without_line_end(attempt->list);
    if (attempt->is_strict || attempt->document->reading.way == LENIENT)
        return hayro_jbig2_page_new(memory, attempt->is_strict, source->handle, source->stream.at, length, page);
    return hayro_jbig2_page_new_salvaged(memory, source->handle, source->stream.at, length, page);
}

static uint32_t draw_of_stream(const struct attempt *attempt, struct drawn *drawn, hayro_jbig2_left_out *left_out) {
    hayro_jbig2_page *page = NULL;
    hayro_jbig2_page_info info;
    uint32_t answer = new_page(attempt, &page);
    if (answer == HAYRO_JBIG2_OK)
        answer = hayro_jbig2_page_get_info(page, &info);
    if (answer == HAYRO_JBIG2_OK)
        answer = set_limit(attempt->painter, &attempt->document->reading, &info);
    if (answer == HAYRO_JBIG2_OK) {
        note_size(drawn, &info, attempt->list);
        hayro_jbig2_page_get_left_out(page, left_out);
        answer = hayro_jbig2_page_draw(page, attempt->painter->context);
    }
    hayro_jbig2_page_free(page);
    return answer;
}

static uint32_t try_to_draw(const struct attempt *attempt, struct drawn *drawn, hayro_jbig2_left_out *left_out) {
    uint32_t answer = prepare(attempt->painter, &attempt->document->reading);
    if (answer == HAYRO_JBIG2_OK)
        answer = attempt->document->kind == KIND_FILE ? draw_of_file(attempt, drawn)
                                                      : draw_of_stream(attempt, drawn, left_out);
    return precise_answer(answer, &attempt->painter->budget);
}

static void add_faults_of_globals(const struct globals *globals, struct faults *faults) {
    for (size_t i = 0; globals != NULL && i < globals->faults->count; i++)
        add_fault(faults, globals->faults->at[i]);
}

static void refuse_page(struct drawn *drawn, struct fault fault) {
    add_fault(&drawn->faults, fault);
    drawn->status = is_of_limits(fault.error) ? OVER_LIMIT : NOT_DONE;
}

/* What the other way drew of a page that strict reading refused with an error. The library counts what strict reading
 * refuses. What it doesn't count has the error of strict reading. */
static void add_what_it_lacks(struct attempt *attempt, uint32_t error, const hayro_jbig2_left_out *left_out,
                              struct drawn *drawn) {
    hayro_jbig2_passed_over passed = {0, 0, 0};
    hayro_jbig2_context_get_passed_over(attempt->painter->context, &passed);
    size_t before = drawn->faults.count;
    /* An embedded page says by itself where it is cut off, and that counts among what is passed over, as the last. */
    if (left_out->list_error != HAYRO_JBIG2_OK && passed.count > 0)
        passed.count--;
    add_segments(&drawn->faults, attempt->list, passed.count, passed.segment, passed.error);
    add_left_out(&drawn->faults, attempt->list, left_out);
    if (drawn->faults.count == before && error != HAYRO_JBIG2_OK) {
        attempt->is_strict = true;
        add_fault(&drawn->faults, locate_fault(attempt, drawn, error));
    }
    if (drawn->faults.count > before)
        drawn->status = INCOMPLETE;
}

static void draw_otherwise(struct attempt *attempt, uint32_t error, struct drawn *drawn) {
    hayro_jbig2_left_out left_out = {0};
    attempt->is_strict = false;
    uint32_t answer = try_to_draw(attempt, drawn, &left_out);
    if (answer == HAYRO_JBIG2_OK)
        add_what_it_lacks(attempt, error, &left_out, drawn);
    else
        refuse_page(drawn, locate_fault(attempt, drawn, answer));
}

static void draw_attempt(struct attempt *attempt, struct drawn *drawn) {
    bool may_be_strict = attempt->document->strict_answer == HAYRO_JBIG2_OK;
    hayro_jbig2_left_out left_out;
    uint32_t answer = HAYRO_JBIG2_OK;
    add_faults_of_globals(attempt->source->globals, &drawn->faults);
    if (drawn->faults.count > 0)
        drawn->status = INCOMPLETE;
    if (may_be_strict) {
        attempt->is_strict = true;
        answer = try_to_draw(attempt, drawn, &left_out);
        if (answer == HAYRO_JBIG2_OK)
            return;
    }
    if (is_of_limits(answer) || attempt->document->reading.way == STRICT)
        refuse_page(drawn, locate_fault(attempt, drawn, answer));
    else
        draw_otherwise(attempt, answer, drawn);
}

void draw_page(struct painter *painter, struct document *document, size_t index, struct drawn *drawn) {
    struct source source;
    struct segment_list list = {.bytes = NULL};
    struct fault fault;
    *drawn = (struct drawn){.status = ALL_WHOLE};
    if (!open_source(document, index, &source, &fault)) {
        refuse_page(drawn, fault);
        close_source(&source);
        return;
    }
    struct attempt attempt = {painter, document, index, &source, &document->list, true};
    if (document->kind != KIND_FILE) {
        list_segments(&list, source.stream.at, source.stream.length, 0, false);
        attempt.list = &list;
    }
    if (source.is_damaged)
        add_fault(&drawn->faults, fault);
    draw_attempt(&attempt, drawn);
    free_segments(&list);
    close_source(&source);
}

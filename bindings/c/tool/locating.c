#include "platform.h"

#include "drawing.h"

#include "jbig2_file.h"

#include <stdlib.h>
#include <string.h>

/* The segments of a page one after the other, as an embedded page has them. */
struct slice {
    uint8_t *bytes;
    size_t length;
    const struct segment **segments;
    size_t *ends; /* of each segment */
    size_t count;
};

/* Takes the segments of a page, or all where it is embedded. */
static void cut_slice(struct slice *slice, const struct segment_list *list, bool is_embedded, uint32_t page) {
    size_t count = list->count;
    const struct segment *const *of_page = is_embedded ? NULL : segments_of_page(list, page, &count);
    *slice = (struct slice){.count = count};
    slice->segments = room_for(count * sizeof *slice->segments);
    slice->ends = room_for(count * sizeof *slice->ends);
    for (size_t i = 0; i < count; i++) {
        slice->segments[i] = is_embedded ? &list->at[i] : of_page[i];
        slice->length += slice->segments[i]->header_size + slice->segments[i]->length;
        slice->ends[i] = slice->length;
    }
    slice->bytes = room_for(slice->length);
    for (size_t i = 0; i < count; i++) {
        const struct segment *segment = slice->segments[i];
        uint8_t *data = slice->bytes + slice->ends[i] - segment->length;
        memcpy(data - segment->header_size, list->bytes + segment->place, segment->header_size);
        memcpy(data, list->bytes + segment->data, segment->length);
    }
}

static void free_slice(struct slice *slice) {
    free(slice->bytes);
    free(slice->segments);
    free(slice->ends);
}

/* What drawing pages to find a fault may take in all. The painter's context has the page, so it has another. */
struct search {
    const struct attempt *attempt;
    hayro_jbig2_context *context;
    struct reader *reader; /* of a file, which keeps the globals */
    hayro_jbig2_globals *globals;
    uint64_t work;
};

static uint32_t error_of_page(struct search *search, const struct slice *slice, size_t length) {
    const struct attempt *attempt = search->attempt;
    const hayro_jbig2_memory *memory = &attempt->painter->budget.memory;
    bool is_salvage = !attempt->is_strict && attempt->document->reading.way == SALVAGE;
    hayro_jbig2_page *page = NULL;
    uint64_t left = 0;
    uint32_t answer =
        is_salvage ? hayro_jbig2_page_new_salvaged(memory, search->globals, slice->bytes, length, &page)
                   : hayro_jbig2_page_new(memory, attempt->is_strict, search->globals, slice->bytes, length, &page);
    if (answer == HAYRO_JBIG2_OK)
        answer = hayro_jbig2_context_set_work_limit(search->context, search->work);
    if (answer == HAYRO_JBIG2_OK) {
        answer = hayro_jbig2_page_draw(page, search->context);
        hayro_jbig2_context_get_work_left(search->context, &left);
        search->work = left;
    }
    hayro_jbig2_page_free(page);
    return answer;
}

/* The first segment with which the page's beginning has the error, or NULL. */
static const struct segment *find_segment(struct search *search, const struct slice *slice, uint32_t error) {
    size_t without = 0, with = slice->count;
    if (with == 0 || error_of_page(search, slice, slice->length) != error)
        return NULL;
    while (with - without > 1) {
        size_t middle = without + (with - without) / 2;
        uint32_t answer = error_of_page(search, slice, slice->ends[middle - 1]);
        if (answer == HAYRO_JBIG2_OUT_OF_MEMORY || answer == HAYRO_JBIG2_WORK_LIMIT)
            return NULL;
        if (answer == error)
            with = middle;
        else
            without = middle;
    }
    return slice->segments[with - 1];
}

/* What the pages of a file share, for its pages alone. A file of many pages with faults has it made once. */
static void make_shared(const struct attempt *attempt, struct reader *reader) {
    uint64_t work = work_for(&attempt->document->reading, stated_pixels(attempt->list));
    struct slice slice;
    reader->has_shared = true;
    cut_slice(&slice, attempt->list, false, 0);
    if (slice.count > 0)
        hayro_jbig2_globals_new_salvaged(&reader->budget.memory, work, slice.bytes, slice.length, &reader->shared);
    free_slice(&slice);
}

static uint32_t find_globals(struct search *search) {
    const struct attempt *attempt = search->attempt;
    uint32_t answer = HAYRO_JBIG2_OK;
    search->globals = attempt->source->handle;
    if (attempt->document->kind != KIND_FILE)
        return answer;
    search->reader = take_reader(attempt->document, attempt->is_strict, &answer);
    if (search->reader == NULL)
        return answer;
    if (!search->reader->has_shared)
        make_shared(attempt, search->reader);
    search->globals = search->reader->shared;
    return answer;
}

static uint32_t open_search(struct search *search, const struct attempt *attempt, const struct drawn *drawn) {
    uint64_t pixels = (uint64_t)drawn->width * drawn->height;
    *search = (struct search){.attempt = attempt, .work = work_for(&attempt->document->reading, pixels)};
    uint32_t answer = hayro_jbig2_context_new(&attempt->painter->budget.memory, &search->context);
    return answer == HAYRO_JBIG2_OK ? find_globals(search) : answer;
}

static void close_search(struct search *search) {
    const struct attempt *attempt = search->attempt;
    hayro_jbig2_context_free(search->context);
    if (search->reader != NULL)
        give_back_reader(attempt->document, attempt->is_strict, search->reader);
}

static struct fault search_for_fault(struct search *search, const struct drawn *drawn, uint32_t error) {
    const struct attempt *attempt = search->attempt;
    bool is_embedded = attempt->document->kind != KIND_FILE;
    hayro_jbig2_left_out left_out = {0};
    struct fault fault = {.error = error};
    struct slice slice;
    if (!is_embedded && search->globals != NULL)
        hayro_jbig2_globals_get_left_out(search->globals, &left_out);
    if ((left_out.segments > 0 && left_out.error == error) || left_out.list_error == error) {
        fault = fault_left_out(attempt->list, &left_out, error);
        fault.is_of_globals = true;
        return fault;
    }
    cut_slice(&slice, attempt->list, is_embedded, drawn->number);
    const struct segment *segment = find_segment(search, &slice, error);
    if (segment != NULL)
        fault = fault_of_number(attempt->list, segment->number, error);
    free_slice(&slice);
    return fault;
}

struct fault locate_fault(const struct attempt *attempt, const struct drawn *drawn, uint32_t error) {
    bool is_of_file = attempt->document->kind == KIND_FILE && drawn->width > 0;
    struct fault fault =
        is_of_file ? fault_of_page(attempt->list, drawn->number, error) : fault_of_list(attempt->list, error);
    struct search search;
    if (fault.has_segment || is_of_limits(error) || error == HAYRO_JBIG2_OK || drawn->width == 0)
        return fault;
    if (open_search(&search, attempt, drawn) == HAYRO_JBIG2_OK)
        fault = search_for_fault(&search, drawn, error);
    close_search(&search);
    return fault;
}

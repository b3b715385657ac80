#include "platform.h"

#include "faults.h"

#include "names.h"

#include <stdio.h>
#include <string.h>

uint32_t precise_answer(uint32_t answer, const struct budget *budget) {
    if (answer == HAYRO_JBIG2_WORK_LIMIT)
        return OVER_WORK_LIMIT;
    return answer == HAYRO_JBIG2_OUT_OF_MEMORY && budget->limit < SIZE_MAX ? OVER_MEMORY_LIMIT : answer;
}

bool is_of_limits(uint32_t answer) {
    return answer == OVER_WORK_LIMIT || answer == OVER_MEMORY_LIMIT || answer == HAYRO_JBIG2_OUT_OF_MEMORY;
}

const char *text_of_answer(uint32_t answer) {
    switch (answer) {
    case OVER_WORK_LIMIT:
        return "refused by the limit of work (--work)";
    case OVER_MEMORY_LIMIT:
        return "refused by the limit of memory (--memory)";
    case CANT_BE_READ:
        return "can't be read";
    case DAMAGED_PDF:
        return "the PDF file is damaged";
    default:
        return hayro_jbig2_error_text(answer);
    }
}

void add_fault(struct faults *faults, struct fault fault) {
    if (faults->count < MOST_FAULTS)
        faults->at[faults->count++] = fault;
}

struct fault fault_of_pdf(uint32_t error, const struct text *reason) {
    struct fault fault = {.error = error};
    snprintf(fault.note, sizeof fault.note, "%s", reason->length > 0 ? reason->at : "");
    return fault;
}

static struct fault fault_at(const struct segment *segment, uint32_t error) {
    return (struct fault){
        .error = error,
        .has_segment = true,
        .segment = segment->number,
        .has_type = true,
        .type = segment->type,
        .has_place = true,
        .place = segment->place,
    };
}

/* The segment that ended the list, as far as its header says what it is. */
static struct fault fault_at_end(const struct segment_list *list, uint32_t error) {
    struct fault fault = fault_at(&list->last, error);
    fault.has_segment = list->known >= KNOWS_NUMBER;
    fault.has_type = list->known >= KNOWS_TYPE;
    size_t rest = list->size - list->last.place;
    if (list->known == KNOWS_HEADER && list->last.stated != HAYRO_JBIG2_UNKNOWN_LENGTH && list->error == error)
        snprintf(fault.note, sizeof fault.note, "cut off, %zu of its %lu bytes are there", list->last.length,
                 (unsigned long)list->last.stated);
    else if (list->known < KNOWS_HEADER && error == HAYRO_JBIG2_PARSE_UNEXPECTED_EOF)
        snprintf(fault.note, sizeof fault.note, "cut off in its header, of which %zu bytes are there", rest);
    return fault;
}

static bool is_at_end(const struct segment_list *list, uint32_t number, uint32_t error) {
    if (list->error != error || error == HAYRO_JBIG2_OK)
        return false;
    return number == (list->known >= KNOWS_NUMBER ? list->last.number : HAYRO_JBIG2_NO_SEGMENT_NUMBER);
}

struct fault fault_of_number(const struct segment_list *list, uint32_t number, uint32_t error) {
    if (is_at_end(list, number, error))
        return fault_at_end(list, error);
    const struct segment *segment = segment_of_number(list, number);
    if (segment != NULL)
        return fault_at(segment, error);
    bool has_number = number != HAYRO_JBIG2_NO_SEGMENT_NUMBER;
    return (struct fault){.error = error, .has_segment = has_number, .segment = number};
}

static bool breaks_rule(const struct segment *segment, uint32_t error) {
    switch (error) {
    case HAYRO_JBIG2_SEGMENT_UNKNOWN_TYPE:
        return !is_known_type(segment->type);
    case HAYRO_JBIG2_SEGMENT_INVALID_UNKNOWN_LENGTH:
        return segment->stated == HAYRO_JBIG2_UNKNOWN_LENGTH && segment->type != 38;
    case HAYRO_JBIG2_SEGMENT_MISSING_PAGE_ASSOCIATION:
        return segment->page == 0 && (is_region(segment->type) || (segment->type >= 48 && segment->type <= 50));
    case HAYRO_JBIG2_UNSUPPORTED:
        return segment->type == EXTENSION;
    default:
        return false;
    }
}

static struct fault fault_of_end(const struct segment_list *list, uint32_t error) {
    return list->error == error ? fault_at_end(list, error) : (struct fault){.error = error};
}

struct fault fault_of_list(const struct segment_list *list, uint32_t error) {
    for (size_t i = 0; i < list->count; i++)
        if (breaks_rule(&list->at[i], error))
            return fault_at(&list->at[i], error);
    return fault_of_end(list, error);
}

struct fault fault_of_page(const struct segment_list *list, uint32_t page, uint32_t error) {
    size_t count;
    const struct segment *const *segments = segments_of_page(list, page, &count);
    for (size_t i = 0; i < count; i++)
        if (breaks_rule(segments[i], error))
            return fault_at(segments[i], error);
    return fault_of_end(list, error);
}

struct fault fault_left_out(const struct segment_list *list, const hayro_jbig2_left_out *left_out, uint32_t error) {
    bool is_passed = left_out->segments > 0 && left_out->error == error;
    bool is_end = left_out->list_error == error && error != HAYRO_JBIG2_OK;
    if (is_end && !(is_passed && error == HAYRO_JBIG2_PARSE_UNEXPECTED_EOF))
        return fault_of_number(list, left_out->list_segment, error);
    return is_passed ? fault_of_number(list, left_out->segment, error) : fault_of_list(list, error);
}

void add_segments(struct faults *faults, const struct segment_list *list, size_t count, uint32_t first,
                  uint32_t error) {
    if (count == 0)
        return;
    struct fault fault = fault_of_number(list, first, error);
    fault.others = count - 1;
    add_fault(faults, fault);
}

void add_left_out(struct faults *faults, const struct segment_list *list, const hayro_jbig2_left_out *left_out) {
    add_segments(faults, list, left_out->segments, left_out->segment, left_out->error);
    if (left_out->pages > 0) {
        struct fault fault = {.error = left_out->page_error};
        snprintf(fault.note, sizeof fault.note, "%zu pages can't begin and are left out", left_out->pages);
        add_fault(faults, fault);
    }
    if (left_out->list_error != HAYRO_JBIG2_OK) {
        struct fault fault = fault_of_number(list, left_out->list_segment, left_out->list_error);
        if (fault.note[0] == '\0')
            snprintf(fault.note, sizeof fault.note, "what follows is left out");
        add_fault(faults, fault);
    }
}

void add_fault_text(struct text *text, const struct fault *fault) {
    if (fault->is_of_globals)
        add_text(text, "globals: ");
    if (fault->has_segment && fault->has_type)
        add_text(text, "segment %lu (%s): ", (unsigned long)fault->segment, name_of_type(fault->type));
    else if (fault->has_segment)
        add_text(text, "segment %lu: ", (unsigned long)fault->segment);
    add_text(text, "%s", text_of_answer(fault->error));
    if (fault->note[0] != '\0')
        add_text(text, ": %s", fault->note);
    if (fault->others > 0)
        add_text(text, ", and %zu more segment%s", fault->others, fault->others > 1 ? "s" : "");
}

void add_fault_lines(struct text *text, const char *place, const struct faults *faults, const char *hint) {
    for (size_t i = 0; i < faults->count; i++) {
        add_text(text, "%s", place);
        add_fault_text(text, &faults->at[i]);
        add_text(text, "%s\n", i + 1 == faults->count ? hint : "");
    }
}

const char *hint_after(uint32_t answer, enum way way) {
    bool helps = answer != CANT_BE_READ && answer != HAYRO_JBIG2_FORMAT_INVALID_HEADER && !is_of_limits(answer);
    return helps && way == LENIENT ? " (--salvage may draw what is left)" : "";
}

static struct fault fault_of_count(const struct document *document) {
    struct fault fault = {.error = HAYRO_JBIG2_FORMAT_PAGE_COUNT_MISMATCH};
    snprintf(fault.note, sizeof fault.note, "it states %lu, and %zu can be read",
             (unsigned long)document->header.page_count, document->count);
    return fault;
}

void find_faults_of_file(const struct document *document, struct faults *faults) {
    uint32_t answer = document->refusal != HAYRO_JBIG2_OK ? document->refusal : document->strict_answer;
    if (document->damage.length > 0)
        add_fault(faults, fault_of_pdf(DAMAGED_PDF, &document->damage));
    if (answer == HAYRO_JBIG2_OK)
        return;
    bool is_count = answer == HAYRO_JBIG2_FORMAT_PAGE_COUNT_MISMATCH && document->refusal == HAYRO_JBIG2_OK;
    struct fault fault = is_count ? fault_of_count(document) : fault_of_list(&document->list, answer);
    if (document->left_out.list_error != answer)
        add_fault(faults, fault);
    if (document->header.has_count && document->header.page_count != document->count &&
        document->refusal == HAYRO_JBIG2_OK && answer != HAYRO_JBIG2_FORMAT_PAGE_COUNT_MISMATCH)
        add_fault(faults, fault_of_count(document));
    add_left_out(faults, &document->list, &document->left_out);
}

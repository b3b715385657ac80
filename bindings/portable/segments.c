/* The calls on one segment of a list. Each has an instance of the module for itself, into which it copies the bytes that it
 * needs. */
#include "instance.h"

#include <string.h>

/* A header that refers to few segments is shorter than that. */
enum { MOST_FIRST_BYTES = 4096 };

enum { INFO_BYTES = 40, REGION_BYTES = 20 };

enum kind_of_question { ASKS_INFO, ASKS_REFERENCES, ASKS_LENGTH, ASKS_REGION };

/* What the module is asked of some bytes. It writes the answer into `room` bytes at `place`. */
struct question {
    struct instance instance;
    enum kind_of_question kind;
    const hayro_jbig2_memory *memory;
    bool strict;
    const uint8_t *bytes;
    size_t length, count;
    uint64_t room, place;
    void *result;
};

static uint32_t call_module(struct question *question, uint64_t bytes) {
    Z_hayro_jbig2_instance_t *module = &question->instance.module;
    const uint64_t length = question->length, place = question->place;
    switch (question->kind) {
    case ASKS_INFO:
        return Z_hayro_jbig2Z_hayro_jbig2_segment_get_info(module, 0, question->strict, bytes, length, place);
    case ASKS_REFERENCES:
        return Z_hayro_jbig2Z_hayro_jbig2_segment_get_references(module, 0, question->strict, bytes, length, place,
                                                                 question->count);
    case ASKS_LENGTH:
        return Z_hayro_jbig2Z_hayro_jbig2_segment_get_length(module, 0, question->strict, bytes, length, place);
    default:
        return Z_hayro_jbig2Z_hayro_jbig2_region_get_info(module, bytes, length, place);
    }
}

static uint64_t number_at(struct question *question, unsigned offset, unsigned size) {
    return jbig2_portable_number(&question->instance, question->place + offset, size);
}

static void take_info(struct question *question) {
    hayro_jbig2_segment_info *info = (hayro_jbig2_segment_info *)question->result;
    info->number = (uint32_t)number_at(question, 0, 4);
    info->segment_type = (uint32_t)number_at(question, 4, 4);
    info->page = (uint32_t)number_at(question, 8, 4);
    info->references = (size_t)number_at(question, 16, 8);
    info->header_length = (size_t)number_at(question, 24, 8);
    info->data_length = number_at(question, 32, 8);
}

static void take_region(struct question *question) {
    hayro_jbig2_region_info *info = (hayro_jbig2_region_info *)question->result;
    info->width = (uint32_t)number_at(question, 0, 4);
    info->height = (uint32_t)number_at(question, 4, 4);
    info->x = (uint32_t)number_at(question, 8, 4);
    info->y = (uint32_t)number_at(question, 12, 4);
    info->combination_operator = (uint32_t)number_at(question, 16, 4);
}

static void take_references(struct question *question) {
    uint32_t *numbers = (uint32_t *)question->result;
    size_t i;
    for (i = 0; i < question->count; i++)
        numbers[i] = (uint32_t)jbig2_portable_number(&question->instance, question->place + 4 * (uint64_t)i, 4);
}

static uint32_t asks(void *words) {
    struct question *question = (struct question *)words;
    struct instance *instance = &question->instance;
    uint64_t bytes;
    uint32_t answer;
    jbig2_portable_begin(instance, question->memory, NULL, 2 * (uint64_t)question->length + question->room);
    question->place = jbig2_portable_take_place(instance, question->room);
    bytes = jbig2_portable_take_place(instance, question->length);
    if (question->place == 0 || bytes == 0)
        return HAYRO_JBIG2_OUT_OF_MEMORY;
    jbig2_portable_copy_in(instance, bytes, question->bytes, question->length);
    answer = call_module(question, bytes);
    if (answer != HAYRO_JBIG2_OK)
        return answer;
    if (question->kind == ASKS_INFO)
        take_info(question);
    else if (question->kind == ASKS_REFERENCES)
        take_references(question);
    else if (question->kind == ASKS_LENGTH)
        *(size_t *)question->result = (size_t)number_at(question, 0, 8);
    else
        take_region(question);
    return HAYRO_JBIG2_OK;
}

/* The instance is too large for a stack. */
static uint32_t ask(const struct question *like) {
    struct question *question = (struct question *)jbig2_portable_take(like->memory, sizeof *question);
    uint32_t answer;
    if (question == NULL)
        return HAYRO_JBIG2_OUT_OF_MEMORY;
    *question = *like;
    answer = jbig2_portable_run(&question->instance, asks, question);
    jbig2_portable_free(&question->instance);
    jbig2_portable_give_back(like->memory, question, sizeof *question);
    return answer;
}

static size_t least(size_t a, size_t b) { return a < b ? a : b; }

static bool ends_too_early(uint32_t answer) {
    return answer == HAYRO_JBIG2_PARSE_UNEXPECTED_EOF || answer == HAYRO_JBIG2_SEGMENT_MISSING_END_MARKER;
}

/* Asks of the first bytes, and of twice as many where these end too early. So what comes after a segment is not copied
 * for each one of a long list. */
static uint32_t ask_of_first(struct question *question) {
    const size_t length = question->length;
    uint32_t answer;
    question->length = least(length, MOST_FIRST_BYTES);
    answer = ask(question);
    while (ends_too_early(answer) && question->length < length) {
        question->length += least(question->length, length - question->length);
        answer = ask(question);
    }
    return answer;
}

static struct question question_of(enum kind_of_question kind, const hayro_jbig2_memory *memory, bool strict,
                                   const uint8_t *bytes, size_t length, void *result, uint64_t room) {
    struct question question;
    memset(&question, 0, sizeof question);
    question.kind = kind;
    question.memory = memory;
    question.strict = strict;
    question.bytes = bytes;
    question.length = length;
    question.result = result;
    question.room = room;
    return question;
}

uint32_t hayro_jbig2_segment_get_info(const hayro_jbig2_memory *memory, bool strict, const uint8_t *bytes,
                                      size_t length, hayro_jbig2_segment_info *info) {
    struct question question = question_of(ASKS_INFO, memory, strict, bytes, length, info, INFO_BYTES);
    return ask_of_first(&question);
}

uint32_t hayro_jbig2_segment_get_references(const hayro_jbig2_memory *memory, bool strict, const uint8_t *bytes,
                                            size_t length, uint32_t *numbers, size_t count) {
    struct question question =
        question_of(ASKS_REFERENCES, memory, strict, bytes, length, numbers, 4 * (uint64_t)count);
    question.count = count;
    return ask_of_first(&question);
}

uint32_t hayro_jbig2_segment_get_length(const hayro_jbig2_memory *memory, bool strict, const uint8_t *bytes,
                                        size_t length, size_t *taken) {
    struct question question = question_of(ASKS_LENGTH, memory, strict, bytes, length, taken, 8);
    hayro_jbig2_segment_info info;
    const uint32_t answer = hayro_jbig2_segment_get_info(memory, strict, bytes, length, &info);
    if (answer != HAYRO_JBIG2_OK)
        return answer;
    if (info.data_length == HAYRO_JBIG2_UNKNOWN_LENGTH)
        return ask_of_first(&question);
    /* Where the length is known, the data need not be copied to see whether they are all there. */
    if (info.data_length > length - info.header_length)
        return HAYRO_JBIG2_PARSE_UNEXPECTED_EOF;
    *taken = info.header_length + (size_t)info.data_length;
    return HAYRO_JBIG2_OK;
}

uint32_t hayro_jbig2_region_get_info(const uint8_t *bytes, size_t length, hayro_jbig2_region_info *info) {
    struct question question =
        question_of(ASKS_REGION, NULL, false, bytes, least(length, MOST_FIRST_BYTES), info, REGION_BYTES);
    return ask(&question);
}

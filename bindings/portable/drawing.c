/* Contexts, and drawing in them. The module draws in a context of the instance that holds the page; what was drawn is
 * then copied. */
#include "held.h"

#include <string.h>

enum { PIECE = 65536 };

static struct context *context_of(hayro_jbig2_context *context) {
    return ((struct handle *)context)->kind == HOLDS_CONTEXT ? (struct context *)context : NULL;
}

uint32_t hayro_jbig2_context_new(const hayro_jbig2_memory *memory, hayro_jbig2_context **context) {
    struct context *made = (struct context *)jbig2_portable_new_handle(memory, HOLDS_CONTEXT, sizeof *made);
    if (made == NULL)
        return HAYRO_JBIG2_OUT_OF_MEMORY;
    made->limit = made->left = HAYRO_JBIG2_NO_WORK_LIMIT;
    *context = (hayro_jbig2_context *)made;
    return HAYRO_JBIG2_OK;
}

uint32_t hayro_jbig2_context_set_work_limit(hayro_jbig2_context *handle, uint64_t work) {
    struct context *context = context_of(handle);
    if (context == NULL)
        return HAYRO_JBIG2_OTHER_HANDLE;
    context->limit = context->left = work;
    return HAYRO_JBIG2_OK;
}

uint32_t hayro_jbig2_context_get_work_left(hayro_jbig2_context *handle, uint64_t *left) {
    const struct context *context = context_of(handle);
    if (context == NULL)
        return HAYRO_JBIG2_OTHER_HANDLE;
    *left = context->left;
    return HAYRO_JBIG2_OK;
}

uint32_t hayro_jbig2_context_get_passed_over(hayro_jbig2_context *handle, hayro_jbig2_passed_over *passed_over) {
    const struct context *context = context_of(handle);
    if (context == NULL)
        return HAYRO_JBIG2_OTHER_HANDLE;
    *passed_over = context->passed_over;
    return HAYRO_JBIG2_OK;
}

uint32_t hayro_jbig2_context_rows(hayro_jbig2_context *handle, size_t place, uint8_t *rows, size_t length) {
    const struct context *context = context_of(handle);
    if (context == NULL)
        return HAYRO_JBIG2_OTHER_HANDLE;
    if (place > context->length || length > context->length - place)
        return HAYRO_JBIG2_OTHER_SIZE;
    if (length > 0)
        memcpy(rows, context->rows + place, length);
    return HAYRO_JBIG2_OK;
}

/* Gives a context room for the rows of a page. */
static bool has_room(struct context *context, size_t length) {
    uint8_t *rows;
    if (length <= context->room)
        return true;
    rows = (uint8_t *)jbig2_portable_take(context->head.memory, length);
    if (rows == NULL)
        return false;
    jbig2_portable_give_back(context->head.memory, context->rows, context->room);
    context->rows = rows;
    context->room = length;
    context->length = 0;
    return true;
}

struct drawing {
    struct held *held;
    struct context *context;
    uint64_t index;
};

/* Copies the rows that were drawn in the module's context, piece by piece. */
static uint32_t copy_rows(struct held *held, struct context *context, size_t length) {
    struct instance *instance = &held->instance;
    const uint64_t piece = jbig2_portable_take_place(instance, PIECE);
    uint32_t answer = piece == 0 ? HAYRO_JBIG2_OUT_OF_MEMORY : HAYRO_JBIG2_OK;
    size_t place = 0;
    context->length = 0;
    while (answer == HAYRO_JBIG2_OK && place < length) {
        const size_t count = length - place < (size_t)PIECE ? length - place : (size_t)PIECE;
        answer = Z_hayro_jbig2Z_hayro_jbig2_context_rows(&instance->module, held->context, place, piece, count);
        jbig2_portable_copy_out(instance, piece, context->rows + place, count);
        place += count;
    }
    if (answer == HAYRO_JBIG2_OK)
        context->length = length;
    if (piece != 0)
        jbig2_portable_give_place(instance, piece, PIECE);
    return answer;
}

/* Takes over from the module's context what was drawn in it. */
static uint32_t take_over(const struct drawing *drawing) {
    struct held *held = drawing->held;
    struct context *context = drawing->context;
    struct asking asking = {held, drawing->index, false};
    hayro_jbig2_passed_over passed_over;
    size_t length;
    uint32_t answer =
        Z_hayro_jbig2Z_hayro_jbig2_context_get_passed_over(&held->instance.module, held->context, held->numbers);
    if (answer != HAYRO_JBIG2_OK)
        return answer;
    passed_over.count = (size_t)jbig2_portable_written(held, 0, 8);
    passed_over.segment = (uint32_t)jbig2_portable_written(held, 8, 4);
    passed_over.error = (uint32_t)jbig2_portable_written(held, 12, 4);
    answer = jbig2_portable_ask(&asking);
    if (answer != HAYRO_JBIG2_OK)
        return answer;
    length = ((size_t)jbig2_portable_written(held, 4, 4) + 7) / 8 * (size_t)jbig2_portable_written(held, 8, 4);
    if (!has_room(context, length))
        return HAYRO_JBIG2_OUT_OF_MEMORY;
    answer = copy_rows(held, context, length);
    if (answer == HAYRO_JBIG2_OK)
        context->passed_over = passed_over;
    return answer;
}

static uint32_t draws(void *words) {
    const struct drawing *drawing = (const struct drawing *)words;
    struct held *held = drawing->held;
    Z_hayro_jbig2_instance_t *module = &held->instance.module;
    uint32_t answer = HAYRO_JBIG2_OK;
    if (held->context == 0) {
        jbig2_portable_set_number(&held->instance, held->numbers, 8, 0);
        answer = Z_hayro_jbig2Z_hayro_jbig2_context_new(module, 0, held->numbers);
        held->context = jbig2_portable_written(held, 0, 8);
    }
    if (answer == HAYRO_JBIG2_OK)
        answer = Z_hayro_jbig2Z_hayro_jbig2_context_set_work_limit(module, held->context, drawing->context->limit);
    if (answer != HAYRO_JBIG2_OK)
        return answer;
    if (held->head.kind == HOLDS_FILE)
        answer = Z_hayro_jbig2Z_hayro_jbig2_file_draw(module, held->value, drawing->index, held->context);
    else
        answer = Z_hayro_jbig2Z_hayro_jbig2_page_draw(module, held->value, held->context);
    if (answer == HAYRO_JBIG2_NO_SUCH_PAGE)
        return answer;
    Z_hayro_jbig2Z_hayro_jbig2_context_get_work_left(module, held->context, held->numbers);
    drawing->context->left = jbig2_portable_written(held, 0, 8);
    return answer == HAYRO_JBIG2_OK ? take_over(drawing) : answer;
}

/* The context holds no page then, as after an error, and nothing of its limit was taken. */
static void forget_page(struct context *context) {
    const hayro_jbig2_passed_over nothing = {0, 0, 0};
    context->length = 0;
    context->passed_over = nothing;
    context->left = context->limit;
}

static uint32_t draw(struct held *held, uint64_t index, hayro_jbig2_context *context) {
    struct drawing drawing;
    drawing.held = held;
    drawing.context = context_of(context);
    drawing.index = index;
    if (drawing.context == NULL)
        return HAYRO_JBIG2_OTHER_HANDLE;
    forget_page(drawing.context);
    if (held == NULL)
        return HAYRO_JBIG2_OTHER_HANDLE;
    return jbig2_portable_run(&held->instance, draws, &drawing);
}

uint32_t hayro_jbig2_page_draw(hayro_jbig2_page *page, hayro_jbig2_context *context) {
    return draw(jbig2_portable_held(page, HOLDS_PAGE), 0, context);
}

uint32_t hayro_jbig2_file_draw(hayro_jbig2_file *file, size_t index, hayro_jbig2_context *context) {
    return draw(jbig2_portable_held(file, HOLDS_FILE), index, context);
}

#include "platform.h"

#include "globals.h"

#include "pdf.h"

#include <stdlib.h>

struct globals *new_globals(struct bytes bytes) {
    struct globals *globals = room_for(sizeof *globals);
    *globals = (struct globals){.bytes = bytes, .files = 1};
    pthread_mutex_init(&globals->lock, NULL);
    return globals;
}

void free_globals(struct globals *globals) {
    if (globals == NULL)
        return;
    hayro_jbig2_globals_free(globals->handle);
    if (globals->is_read)
        close_budget(&globals->budget);
    free_segments(&globals->list);
    free_bytes(&globals->bytes);
    free_text(&globals->reason);
    free(globals->faults);
    pthread_mutex_destroy(&globals->lock);
    free(globals);
}

static uint32_t decode(struct globals *globals, const struct reading *reading, bool is_strict) {
    uint64_t work = work_for(reading, globals->pixels);
    const struct bytes *bytes = &globals->bytes;
    size_t length = size_without_line_end(&globals->list);
    uint32_t answer;
    if (is_strict || reading->way == LENIENT)
        answer = hayro_jbig2_globals_new_within(&globals->budget.memory, is_strict, work, bytes->at, length,
                                                &globals->handle);
    else
        answer = hayro_jbig2_globals_new_salvaged(&globals->budget.memory, work, bytes->at, length, &globals->handle);
    return precise_answer(answer, &globals->budget);
}

/* Salvage says which segment refuses globals. */
static void look_for_fault(struct globals *globals, const struct reading *reading) {
    hayro_jbig2_globals *salvaged = NULL;
    hayro_jbig2_globals_new_salvaged(&globals->budget.memory, work_for(reading, globals->pixels), globals->bytes.at,
                                     globals->bytes.length, &salvaged);
    if (salvaged != NULL)
        hayro_jbig2_globals_get_left_out(salvaged, &globals->left_out);
    hayro_jbig2_globals_free(salvaged);
}

static bool fetch(struct document *document, struct globals *globals) {
    if (document->kind != KIND_PDF)
        return true;
    pthread_mutex_lock(&document->lock);
    bool is_read = read_pdf_stream(document, globals->object, globals->generation, &globals->bytes, &globals->reason);
    pthread_mutex_unlock(&document->lock);
    return is_read;
}

static void decode_once(struct document *document, struct globals *globals) {
    if (!fetch(document, globals)) {
        globals->answer = globals->strict_answer = CANT_BE_READ;
        return;
    }
    list_segments(&globals->list, globals->bytes.at, globals->bytes.length, 0, false);
    globals->answer = globals->strict_answer = decode(globals, &document->reading, true);
    if (globals->answer != HAYRO_JBIG2_OK && document->reading.way != STRICT && !is_of_limits(globals->answer))
        globals->answer = decode(globals, &document->reading, false);
    if (globals->answer == HAYRO_JBIG2_OK)
        hayro_jbig2_globals_get_left_out(globals->handle, &globals->left_out);
    else if (!is_of_limits(globals->answer))
        look_for_fault(globals, &document->reading);
}

static void find_faults(const struct globals *globals, struct faults *faults) {
    if (globals->answer == CANT_BE_READ)
        add_fault(faults, fault_of_pdf(CANT_BE_READ, &globals->reason));
    else if (globals->answer != HAYRO_JBIG2_OK)
        add_fault(faults, fault_left_out(&globals->list, &globals->left_out, globals->answer));
    else {
        if (globals->reason.length > 0)
            add_fault(faults, fault_of_pdf(DAMAGED_PDF, &globals->reason));
        add_left_out(faults, &globals->list, &globals->left_out);
        if (faults->count == 0 && globals->strict_answer != HAYRO_JBIG2_OK)
            add_fault(faults, fault_of_list(&globals->list, globals->strict_answer));
    }
    for (size_t i = 0; i < faults->count; i++)
        faults->at[i].is_of_globals = true;
}

/* They are locked. */
static void read_globals(struct document *document, struct globals *globals) {
    if (globals->is_read)
        return;
    globals->is_read = true;
    open_budget(&globals->budget, document->reading.memory);
    decode_once(document, globals);
    globals->faults = room_for(sizeof *globals->faults);
    globals->faults->count = 0;
    find_faults(globals, globals->faults);
}

bool share_globals(struct document *document, struct globals *globals, hayro_jbig2_globals **handle,
                   struct fault *fault) {
    pthread_mutex_lock(&globals->lock);
    read_globals(document, globals);
    uint32_t answer = globals->answer;
    if (answer == HAYRO_JBIG2_OK) {
        answer = hayro_jbig2_globals_share(&globals->budget.memory, globals->handle, handle);
        answer = precise_answer(answer, &globals->budget);
    }
    pthread_mutex_unlock(&globals->lock);
    if (answer != HAYRO_JBIG2_OK)
        *fault =
            answer == globals->answer ? globals->faults->at[0] : (struct fault){.error = answer, .is_of_globals = true};
    return answer == HAYRO_JBIG2_OK;
}

void leave_globals(struct globals *globals) {
    if (globals == NULL || globals->is_of_several_files)
        return;
    pthread_mutex_lock(&globals->lock);
    if (--globals->pages == 0) {
        hayro_jbig2_globals_free(globals->handle);
        globals->handle = NULL;
    }
    pthread_mutex_unlock(&globals->lock);
}

#include "platform.h"

#include "jobs.h"

#include "drawing.h"
#include "globals.h"
#include "output.h"
#include "queue.h"

#include <signal.h>
#include <stdlib.h>

/* What the threads share. Only the thread whose turn it is uses the single output. */
struct work {
    struct queue queue;
    const struct words *words;
    struct output single;
    const char *single_name;
    bool is_open;
    bool has_failed; /* to write the single output */
};

static void add_notes(struct text *messages, const struct document *document, size_t index, const struct drawn *drawn) {
    const struct image *image = &document->images[index];
    if (image->is_inverted) {
        add_place(messages, document, index);
        add_text(messages, "note: the PDF file shows this image inverted (/Decode)\n");
    }
    if (image->is_mask) {
        add_place(messages, document, index);
        add_text(messages, "note: in the PDF file this image is a mask (/ImageMask)\n");
    }
    if (document->kind == KIND_PDF && (image->width != drawn->width || image->height != drawn->height)) {
        add_place(messages, document, index);
        add_text(messages, "note: it has %lu by %lu pixels, and %lu by %lu by the PDF file\n",
                 (unsigned long)drawn->width, (unsigned long)drawn->height, (unsigned long)image->width,
                 (unsigned long)image->height);
    }
}

static void describe(const struct words *words, const struct task *task, const struct drawn *drawn,
                     struct report *report) {
    struct document *document = &task->use->document;
    struct text place = {NULL, 0, 0};
    bool is_refused = drawn->status == NOT_DONE;
    add_place(&place, document, task->index);
    if (drawn->status == INCOMPLETE)
        add_text(&place, "incomplete: ");
    const char *hint = is_refused && drawn->faults.count > 0
                           ? hint_after(drawn->faults.at[drawn->faults.count - 1].error, words->reading.way)
                           : "";
    add_fault_lines(&report->messages, place.at, &drawn->faults, hint);
    free_text(&place);
    if (!words->is_quiet && (drawn->status == ALL_WHOLE || drawn->status == INCOMPLETE))
        add_notes(&report->messages, document, task->index, drawn);
    report->status = drawn->status;
}

static struct picture picture_of(const struct painter *painter, const struct drawn *drawn) {
    return (struct picture){
        .width = drawn->width,
        .height = drawn->height,
        .x_resolution = drawn->has_information ? drawn->information.x_resolution : 0,
        .y_resolution = drawn->has_information ? drawn->information.y_resolution : 0,
        .context = painter->context,
    };
}

static void note_failure(struct report *report, struct text *reason) {
    add_text(&report->messages, "%s\n", reason->at);
    report->status = worse_of(report->status, NOT_DONE);
}

static void write_own_file(const struct words *words, const char *name, const struct picture *picture,
                           struct report *report) {
    struct output output;
    struct text reason = {NULL, 0, 0};
    bool is_open = open_output(&output, name, words->format, words->is_forced, &reason);
    bool is_written = is_open && add_picture(&output, picture, &reason);
    if (is_written)
        is_written = finish_output(&output, &reason);
    else
        abandon_output(&output);
    if (!is_written)
        note_failure(report, &reason);
    free_text(&reason);
}

/* The thread has its turn. */
static void append_to_single(struct work *work, const struct picture *picture, struct report *report) {
    const struct words *words = work->words;
    struct text reason = {NULL, 0, 0};
    if (work->has_failed)
        return;
    bool is_written =
        work->is_open || open_output(&work->single, work->single_name, words->format, words->is_forced, &reason);
    work->is_open = true;
    is_written = is_written && add_picture(&work->single, picture, &reason);
    work->has_failed = !is_written;
    if (!is_written) {
        note_failure(report, &reason);
        stop_queue(&work->queue);
    }
    free_text(&reason);
}

static void do_task(struct work *work, struct painter *painter, struct task *task) {
    struct report report = {.status = ALL_WHOLE};
    struct drawn drawn;
    draw_page(painter, &task->use->document, task->index, &drawn);
    leave_globals(task->use->document.images[task->index].globals);
    describe(work->words, task, &drawn, &report);
    bool has_page = drawn.status == ALL_WHOLE || drawn.status == INCOMPLETE;
    struct picture picture = picture_of(painter, &drawn);
    bool is_single = work->queue.is_single;
    if (is_single && has_page)
        prepare_picture(&picture, work->words->format);
    if (is_single)
        wait_for_turn(&work->queue, task);
    if (is_single && has_page)
        append_to_single(work, &picture, &report);
    else if (has_page)
        write_own_file(work->words, task->name, &picture, &report);
    free_prepared(&picture);
    finish_task(&work->queue, task, report);
}

/* A library may use up the stack, so the handler of that fault has another. */
static void *run_thread(void *shared) {
    char room[1 << 16];
    stack_t before, others = {.ss_sp = room, .ss_size = sizeof room};
    struct work *work = shared;
    struct painter painter;
    struct task task;
    sigaltstack(&others, &before);
    open_painter(&painter);
    while (take_task(&work->queue, &task))
        do_task(work, &painter, &task);
    close_painter(&painter);
    sigaltstack(&before, NULL);
    return NULL;
}

/* A user's limit, or the C library, may give threads less stack than the libraries need. */
static void set_least_stack(pthread_attr_t *attributes) {
    enum { LEAST = 1 << 20 };
    size_t size;
    if (pthread_attr_getstacksize(attributes, &size) == 0 && size < LEAST)
        pthread_attr_setstacksize(attributes, LEAST);
}

/* Starts as many threads as it can. */
static unsigned start_threads(struct work *work, pthread_t *threads) {
    unsigned count = 0;
    pthread_attr_t attributes;
    if (pthread_attr_init(&attributes) != 0)
        return 0;
    set_least_stack(&attributes);
    while (count < work->words->jobs && pthread_create(&threads[count], &attributes, run_thread, work) == 0)
        count++;
    pthread_attr_destroy(&attributes);
    return count;
}

/* A file that lacks pages doesn't appear. */
static enum status finish_single(struct work *work, enum status status) {
    struct text reason = {NULL, 0, 0};
    bool is_written = !work->has_failed;
    if (!work->is_open)
        return ALL_WHOLE;
    bool lacks_pages = status != ALL_WHOLE && status != INCOMPLETE;
    if (lacks_pages && work->single.temporary != NULL && is_written) {
        complain("%s is not written, since it would lack pages", work->single_name);
        is_written = false;
    }
    if (!is_written)
        abandon_output(&work->single);
    else if (!finish_output(&work->single, &reason)) {
        complain("%s", reason.at);
        is_written = false;
    }
    free_text(&reason);
    return is_written ? ALL_WHOLE : NOT_DONE;
}

static enum status run(struct work *work) {
    pthread_t *threads = room_for(work->words->jobs * sizeof *threads);
    unsigned count = start_threads(work, threads);
    enum status status = NOT_DONE;
    if (count > 0)
        status = print_reports(&work->queue);
    else
        complain("no thread could be started");
    for (unsigned i = 0; i < count; i++)
        pthread_join(threads[i], NULL);
    free(threads);
    return worse_of(status, finish_single(work, status));
}

/* What can be known before anything is drawn. */
static bool can_be_written(const struct words *words, const char *single_name, struct text *messages) {
    if (version_of_format(words->format) == NULL) {
        add_missing_package(messages, words->format);
        add_text(messages, "\n");
        return false;
    }
    if (single_name != NULL && !words->is_forced && is_overwritten(single_name)) {
        add_text(messages, "%s: is there already; --force overwrites it\n", single_name);
        return false;
    }
    return make_folder(words, messages);
}

enum status draw_all(const struct words *words) {
    struct work work = {.words = words};
    struct text messages = {NULL, 0, 0};
    enum status status = NOT_DONE;
    has_single_output(words, &work.single_name);
    if (can_be_written(words, work.single_name, &messages)) {
        if (open_queue(&work.queue, words, &messages))
            status = run(&work);
        close_queue(&work.queue);
    }
    print_messages(&messages);
    free_text(&messages);
    return status;
}

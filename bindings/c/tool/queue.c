#include "platform.h"

#include "queue.h"

#include "output.h"

#include <errno.h>
#include <stdlib.h>
#include <string.h>
#include <time.h>

bool open_queue(struct queue *queue, const struct words *words, struct text *messages) {
    const char *name;
    *queue = (struct queue){.words = words, .is_single = has_single_output(words, &name)};
    pthread_mutex_init(&queue->lock, NULL);
    pthread_cond_init(&queue->changed, NULL);
    return open_inputs(&queue->inputs, words, messages);
}

void close_queue(struct queue *queue) {
    close_inputs(&queue->inputs);
    free_names(&queue->names);
    free(queue->reports);
    pthread_mutex_destroy(&queue->lock);
    pthread_cond_destroy(&queue->changed);
}

static size_t next_order(struct queue *queue) {
    if (queue->count == queue->room) {
        queue->room = 2 * queue->room + 16;
        queue->reports = larger_room(queue->reports, queue->room * sizeof *queue->reports);
    }
    queue->reports[queue->count] = (struct report){.status = ALL_WHOLE};
    return queue->count++;
}

static void note_report(struct queue *queue, size_t order, struct report report) {
    report.is_done = true;
    queue->reports[order] = report;
    while (queue->turn < queue->count && queue->reports[queue->turn].is_done)
        queue->turn++;
    pthread_cond_broadcast(&queue->changed);
}

static void close_if_done(struct queue *queue, struct use *use) {
    if (!use->is_handed_out || use->in_work > 0)
        return;
    if (queue->use == use)
        queue->use = NULL;
    close_document(&use->document);
    free(use);
}

static size_t count_wanted(const struct words *words, const struct document *document) {
    size_t count = 0;
    for (size_t i = 0; i < document->count; i++)
        count += is_wanted(words, document->images[i].page);
    return count;
}

/* Looks whether the pages of a document that was just opened can be written, and says why not. */
static enum status check_pages(struct queue *queue, const struct document *document, struct text *messages) {
    const struct words *words = queue->words;
    size_t wanted = count_wanted(words, document);
    bool is_full = queue->is_single && words->format == FORMAT_PNG && queue->pages + wanted > 1;
    if (document->count == 0)
        add_text(messages, "%s: no page\n", document->name);
    else if (wanted == 0 && words->ranges[0].first <= document->pages)
        add_text(messages, "%s: no JBIG2 image on these pages\n", document->name);
    else if (is_full)
        add_text(messages, "%s: a PNG file holds one page: give -o FOLDER/, --pages N, or --format tiff\n",
                 document->name);
    enum status status = is_full ? WRONG_WORDS : wanted == 0 ? NOT_DONE : ALL_WHOLE;
    return worse_of(status, find_missing_pages(words, document, messages));
}

/* Reading an input may take long, as from a pipe. Pages that were taken before go on. */
static enum opened open_unlocked(struct queue *queue, struct use *use, struct report *report) {
    queue->is_opening = true;
    pthread_mutex_unlock(&queue->lock);
    enum opened opened = next_document(&queue->inputs, &use->document, &report->messages, &report->status);
    pthread_mutex_lock(&queue->lock);
    queue->is_opening = false;
    return opened;
}

/* Opens the next input. What is wrong with it as a whole is a report of its own. */
static bool open_next(struct queue *queue) {
    struct use *use = room_for(sizeof *use);
    struct report report = {.status = ALL_WHOLE};
    *use = (struct use){.next = 0};
    enum opened opened = open_unlocked(queue, use, &report);
    if (opened == OPENED) {
        enum status status = check_pages(queue, &use->document, &report.messages);
        queue->pages += status == WRONG_WORDS ? 0 : count_wanted(queue->words, &use->document);
        report.status = worse_of(report.status, status);
        if (status == WRONG_WORDS)
            use->next = use->document.count;
        queue->use = use;
    } else {
        if (opened == REFUSED)
            close_document(&use->document);
        free(use);
    }
    if (report.messages.length > 0)
        note_report(queue, next_order(queue), report);
    return opened != NO_INPUT;
}

/* The next wanted page of the document that is open. */
static bool take_page(struct queue *queue, struct task *task) {
    struct use *use = queue->use;
    struct document *document = &use->document;
    while (use->next < document->count && !is_wanted(queue->words, document->images[use->next].page))
        use->next++;
    if (use->next == document->count)
        return false;
    *task = (struct task){.use = use, .index = use->next++, .order = next_order(queue)};
    use->in_work++;
    return true;
}

/* Gives a page the name of its file. Where that can't be used, the page is done. */
static bool name_page(struct queue *queue, struct task *task) {
    if (queue->is_single)
        return true;
    struct report report = {.status = NOT_DONE};
    task->name = file_name_of_page(queue->words, &task->use->document, task->index);
    char *copy = room_for(strlen(task->name) + 1);
    strcpy(copy, task->name);
    if (!add_name(&queue->names, copy))
        add_text(&report.messages, "%s: another page was written to it just now\n", task->name);
    else if (!queue->words->is_forced && is_overwritten(task->name))
        add_text(&report.messages, "%s: is there already; --force overwrites it\n", task->name);
    else
        return true;
    free(task->name);
    task->use->in_work--;
    queue->pages_done++;
    note_report(queue, task->order, report);
    return false;
}

bool take_task(struct queue *queue, struct task *task) {
    bool is_taken = false;
    pthread_mutex_lock(&queue->lock);
    while (!is_taken && !queue->is_stopped && !queue->is_over) {
        if (queue->is_opening)
            pthread_cond_wait(&queue->changed, &queue->lock);
        else if (queue->use == NULL)
            queue->is_over = !open_next(queue);
        else if (take_page(queue, task))
            is_taken = name_page(queue, task);
        else {
            struct use *use = queue->use;
            queue->use = NULL;
            use->is_handed_out = true;
            close_if_done(queue, use);
        }
    }
    if (queue->is_stopped && queue->use != NULL) {
        queue->use->is_handed_out = true;
        close_if_done(queue, queue->use);
        queue->use = NULL;
    }
    queue->is_over = queue->is_over || (queue->is_stopped && !queue->is_opening);
    pthread_cond_broadcast(&queue->changed);
    pthread_mutex_unlock(&queue->lock);
    return is_taken;
}

void wait_for_turn(struct queue *queue, const struct task *task) {
    pthread_mutex_lock(&queue->lock);
    while (queue->turn != task->order)
        pthread_cond_wait(&queue->changed, &queue->lock);
    pthread_mutex_unlock(&queue->lock);
}

void finish_task(struct queue *queue, struct task *task, struct report report) {
    pthread_mutex_lock(&queue->lock);
    free(task->name);
    task->use->in_work--;
    queue->pages_done++;
    close_if_done(queue, task->use);
    note_report(queue, task->order, report);
    pthread_mutex_unlock(&queue->lock);
}

void stop_queue(struct queue *queue) {
    pthread_mutex_lock(&queue->lock);
    queue->is_stopped = true;
    pthread_mutex_unlock(&queue->lock);
}

/* The queue is locked, but not while a message is written: a terminal may be stopped, and pages go on meanwhile. */
static void print_done(struct queue *queue) {
    while (queue->printed < queue->turn) {
        struct report *report = &queue->reports[queue->printed++];
        struct text messages = report->messages;
        report->messages = (struct text){NULL, 0, 0};
        queue->status = worse_of(queue->status, report->status);
        pthread_mutex_unlock(&queue->lock);
        print_messages(&messages);
        free_text(&messages);
        pthread_mutex_lock(&queue->lock);
    }
}

static void show_pages(struct queue *queue) {
    size_t done = queue->pages_done, pages = queue->pages;
    pthread_mutex_unlock(&queue->lock);
    print_progress(done, pages);
    pthread_mutex_lock(&queue->lock);
}

static double seconds_now(void) {
    struct timespec now;
    clock_gettime(CLOCK_MONOTONIC, &now);
    return (double)now.tv_sec + (double)now.tv_nsec / 1e9;
}

static void wait_for_change(struct queue *queue) {
    enum { TENTH = 100000000 };
    struct timespec until;
    clock_gettime(CLOCK_REALTIME, &until);
    until.tv_nsec += TENTH;
    until.tv_sec += until.tv_nsec / 1000000000;
    until.tv_nsec %= 1000000000;
    pthread_cond_timedwait(&queue->changed, &queue->lock, &until);
}

enum status print_reports(struct queue *queue) {
    bool shows = has_progress() && !queue->words->is_quiet;
    double began = seconds_now(), shown = began;
    pthread_mutex_lock(&queue->lock);
    while (!queue->is_over || queue->printed < queue->count) {
        print_done(queue);
        double now = seconds_now();
        if (shows && now - began > 1 && now - shown > 0.1) {
            show_pages(queue);
            shown = now;
        }
        if (!queue->is_over || queue->printed < queue->count)
            wait_for_change(queue);
    }
    pthread_mutex_unlock(&queue->lock);
    if (shows)
        print_progress(1, 1);
    return queue->status;
}

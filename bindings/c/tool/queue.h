/* The pages that are to be drawn, in order, and what was said of each. Threads take pages; reports come out in order.
 */
#ifndef HAYRO_TOOL_QUEUE_H
#define HAYRO_TOOL_QUEUE_H

#include "file_names.h"
#include "inputs.h"

/* An open document, and how many of its pages are in work. */
struct use {
    struct document document;
    size_t next, in_work;
    bool is_handed_out;
};

/* A page that a thread took. */
struct task {
    struct use *use;
    size_t index;
    size_t order;
    char *name; /* of its file, or NULL where all pages have one output */
};

struct report {
    struct text messages;
    enum status status;
    bool is_done;
};

struct queue {
    const struct words *words;
    struct inputs inputs;
    struct use *use;
    struct names names;
    struct report *reports;
    size_t count, room; /* of reports that were given an order */
    size_t turn;        /* the first that isn't done */
    size_t printed;
    size_t pages, pages_done; /* that are known so far */
    bool is_opening;          /* a thread has the inputs to itself, and the queue isn't locked meanwhile */
    bool is_over, is_stopped, is_single;
    enum status status;
    pthread_mutex_t lock;
    pthread_cond_t changed;
};

bool open_queue(struct queue *queue, const struct words *words, struct text *messages);
void close_queue(struct queue *queue);

/* The next page, or false where there is none. */
bool take_task(struct queue *queue, struct task *task);
/* Waits until all pages before this one are done. */
void wait_for_turn(struct queue *queue, const struct task *task);
/* Takes over the report. */
void finish_task(struct queue *queue, struct task *task, struct report report);
/* No more pages are handed out. */
void stop_queue(struct queue *queue);
/* Prints reports as they come, until all pages are done, and returns the status of all. */
enum status print_reports(struct queue *queue);

#endif

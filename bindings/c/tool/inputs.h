/* The inputs that the words name, one after the other, each with its globals. */
#ifndef HAYRO_TOOL_INPUTS_H
#define HAYRO_TOOL_INPUTS_H

#include "words.h"

struct inputs {
    const struct words *words;
    size_t next;
    struct globals *globals; /* for embedded pages without globals of their own, or NULL */
    bool has_ahead;          /* the input at `next` was read to see what it is */
    struct bytes ahead;
};

/* What is refused or open has to be closed. */
enum opened { NO_INPUT, NOT_READ, REFUSED, OPENED };

/* Reads --globals. False with messages where that can't be done. */
bool open_inputs(struct inputs *inputs, const struct words *words, struct text *messages);
void close_inputs(struct inputs *inputs);

/* Opens the next input, with what is wrong with it as a whole in messages and status. */
enum opened next_document(struct inputs *inputs, struct document *document, struct text *messages, enum status *status);

/* Says which of the wanted pages a document has not. One without pages has a message of its own. */
enum status find_missing_pages(const struct words *words, const struct document *document, struct text *messages);

#endif

#include "platform.h"

#include "inputs.h"

#include "globals.h"

#include <errno.h>
#include <string.h>

static bool read_or_say(const char *word, struct bytes *bytes, struct text *messages) {
    bool is_read = read_input(word, bytes);
    if (!is_read)
        add_text(messages, "%s: can't be read: %s\n", shown_name(word), strerror(errno));
    return is_read;
}

static void take_for_all(struct inputs *inputs, struct bytes bytes) {
    inputs->globals = new_globals(bytes);
    inputs->globals->is_of_several_files = true;
    inputs->globals->files = inputs->words->input_count;
}

bool open_inputs(struct inputs *inputs, const struct words *words, struct text *messages) {
    struct bytes bytes;
    *inputs = (struct inputs){.words = words};
    if (words->globals == NULL)
        return true;
    if (!read_or_say(words->globals, &bytes, messages))
        return false;
    enum kind kind = kind_of(&bytes);
    if (kind == KIND_GLOBALS || kind == KIND_UNKNOWN) {
        take_for_all(inputs, bytes);
        return true;
    }
    add_text(messages, "%s: this is %s, not globals\n", shown_name(words->globals), name_of_kind(kind, &bytes));
    free_bytes(&bytes);
    return false;
}

void close_inputs(struct inputs *inputs) {
    free_globals(inputs->globals);
    free_bytes(&inputs->ahead);
}

static bool read_next(struct inputs *inputs, struct bytes *bytes, const char **word, struct text *messages) {
    *word = inputs->words->inputs[inputs->next++];
    if (!inputs->has_ahead)
        return read_or_say(*word, bytes, messages);
    inputs->has_ahead = false;
    *bytes = inputs->ahead;
    inputs->ahead = (struct bytes){NULL, 0};
    return true;
}

/* Globals that are named after an embedded page are its own. */
static struct globals *take_own_globals(struct inputs *inputs) {
    const struct words *words = inputs->words;
    if (inputs->next == words->input_count)
        return NULL;
    inputs->has_ahead = read_input(words->inputs[inputs->next], &inputs->ahead);
    if (!inputs->has_ahead || kind_of(&inputs->ahead) != KIND_GLOBALS)
        return NULL;
    struct globals *globals = new_globals(inputs->ahead);
    inputs->has_ahead = false;
    inputs->ahead = (struct bytes){NULL, 0};
    inputs->next++;
    return globals;
}

static struct globals *globals_of_next(struct inputs *inputs, const struct bytes *bytes) {
    if (kind_of(bytes) != KIND_EMBEDDED)
        return NULL;
    struct globals *own = take_own_globals(inputs);
    bool has_none = inputs->globals == NULL || inputs->globals->bytes.length == 0;
    return own != NULL || has_none ? own : inputs->globals;
}

/* Globals that are named first are for all. */
static bool are_for_all(struct inputs *inputs, const struct bytes *bytes) {
    bool is_first = inputs->next == 1 && inputs->words->input_count > 1;
    return is_first && inputs->globals == NULL && kind_of(bytes) == KIND_GLOBALS;
}

enum opened next_document(struct inputs *inputs, struct document *document, struct text *messages,
                          enum status *status) {
    struct bytes bytes;
    const char *word;
    *status = NOT_DONE;
    if (inputs->next == inputs->words->input_count)
        return NO_INPUT;
    if (!read_next(inputs, &bytes, &word, messages))
        return NOT_READ;
    if (are_for_all(inputs, &bytes)) {
        take_for_all(inputs, bytes);
        return next_document(inputs, document, messages, status);
    }
    struct globals *globals = globals_of_next(inputs, &bytes);
    document->reading = inputs->words->reading;
    *status = open_document(document, word, bytes, globals, inputs->words->password, messages);
    return *status == ALL_WHOLE || *status == INCOMPLETE ? OPENED : REFUSED;
}

enum status find_missing_pages(const struct words *words, const struct document *document, struct text *messages) {
    enum status status = ALL_WHOLE;
    for (size_t i = 0; i < words->range_count && document->count > 0; i++) {
        size_t last = words->ranges[i].last == SIZE_MAX ? words->ranges[i].first : words->ranges[i].last;
        if (last <= document->pages)
            continue;
        add_text(messages, "%s: no page %zu, the last is %zu\n", document->name, last, document->pages);
        status = NOT_DONE;
    }
    return status;
}

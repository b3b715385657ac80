/* The bytes of an input, and what they are by the first of them. */
#ifndef HAYRO_TOOL_INPUT_H
#define HAYRO_TOOL_INPUT_H

#include <stdbool.h>
#include <stddef.h>
#include <stdint.h>

struct bytes {
    uint8_t *at;
    size_t length;
};

/* Whether a word for an input names standard input: "-". A file of that name is "./-". */
bool is_standard_input(const char *word);
/* An input as messages name it. */
const char *shown_name(const char *word);

/* Reads a file or standard input. False with errno set where it can't be read. */
bool read_input(const char *word, struct bytes *bytes);
void free_bytes(struct bytes *bytes);

enum kind { KIND_FILE, KIND_PDF, KIND_EMBEDDED, KIND_GLOBALS, KIND_UNKNOWN };

enum kind kind_of(const struct bytes *bytes);
/* What bytes of a kind are, or of an unknown one what they look like. */
const char *name_of_kind(enum kind kind, const struct bytes *bytes);
/* What bytes of an unknown kind look like, or NULL. */
const char *look_of(const struct bytes *bytes);

#endif

/* The names of the files that pages are written to. */
#ifndef HAYRO_TOOL_FILE_NAMES_H
#define HAYRO_TOOL_FILE_NAMES_H

#include "words.h"

/* Whether all pages go to one output, and its name, NULL for standard output. */
bool has_single_output(const struct words *words, const char **name);
/* Makes the folder that -o names with a slash. False with a reason. */
bool make_folder(const struct words *words, struct text *reason);
/* The name for a page's own file; to be freed. */
char *file_name_of_page(const struct words *words, const struct document *document, size_t index);
/* The name for what is written of a picture, by the word for its input, its number from 1 and how many there are; to be
 * freed. */
char *file_name_of_picture(const struct words *words, const char *input, size_t number, size_t all);

/* The names that were given out, so that no page is written over another of the same run. */
struct names {
    void *tree;
};

/* Takes over a name, or returns false and frees it where it was given out before. */
bool add_name(struct names *names, char *name);
void free_names(struct names *names);

#endif

/* What `info` prints of an input, by a printer for people or one for programs. */
#ifndef HAYRO_TOOL_LISTING_H
#define HAYRO_TOOL_LISTING_H

#include "drawing.h"

struct listing {
    const struct document *document;
    struct fault *found; /* of the file as a whole, and of the pages whose segments are its own */
    size_t found_count;
};

struct printer {
    void (*begin)(const struct listing *listing);
    /* A page, with its segments where they are a stream of their own. */
    void (*page)(const struct listing *listing, size_t index, const struct drawn *drawn,
                 const struct segment_list *list);
    /* After all pages: what they share, and the segments of a file. */
    void (*end)(const struct listing *listing);
    void (*finish)(void);
};

extern const struct printer table_printer, json_printer;

/* "whole", "incomplete", "refused" or "over the limit" */
const char *name_of_state(enum status status);

#endif

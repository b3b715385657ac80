/* Draws the pages of documents. */
#ifndef HAYRO_TOOL_DRAWING_H
#define HAYRO_TOOL_DRAWING_H

#include "document.h"
#include "faults.h"

/* What a thread draws with. */
struct painter {
    struct budget budget;
    hayro_jbig2_context *context;
};

/* A page that was drawn, or the faults that refused it. */
struct drawn {
    enum status status; /* ALL_WHOLE or INCOMPLETE where the painter's context has the page */
    uint32_t number, width, height;
    bool has_information;
    struct page_information information;
    struct faults faults;
};

void open_painter(struct painter *painter);
void close_painter(struct painter *painter);

/* Reads the page strictly, so that a page which is reported as whole is what the standard says. Where strict reading
 * refuses it, or its file, it is drawn in the document's other way, with what the library says that it lacks. */
void draw_page(struct painter *painter, struct document *document, size_t index, struct drawn *drawn);

/* Where a page comes from: its stream and its globals. A page of a file has neither. */
struct source {
    struct bytes stream;
    bool is_own;     /* to be freed */
    bool is_damaged; /* as the fault of open_source says */
    struct globals *globals;
    hayro_jbig2_globals *handle;
};

/* False with the fault where there is no stream, or no globals that the page needs. A damaged PDF file has a fault too.
 */
bool open_source(struct document *document, size_t index, struct source *source, struct fault *fault);
void close_source(struct source *source);

/* One way of drawing a page. */
struct attempt {
    struct painter *painter;
    struct document *document;
    size_t index;
    const struct source *source;
    const struct segment_list *list; /* of the file or the stream */
    bool is_strict;
};

/* The fault of an attempt that ended with an error, with its segment where that can be found. */
struct fault locate_fault(const struct attempt *attempt, const struct drawn *drawn, uint32_t error);

#endif

/* Contexts, and the globals that they share. */
#ifndef CONTEXT_H
#define CONTEXT_H

#include "sharing.h"

/* A page in a list of its context, which holds it until it is freed itself. */
struct page {
    struct image image;
    struct allocator *allocator;
    bool is_kept; /* one of the holders is the context */
    struct page *next;
    uint8_t rows[];
};

/* A file that is handed out page by page, in a room that serves them all. */
struct open_file {
    hayro_jbig2_file *file;
    hayro_jbig2_context *room;
    size_t count, next;
};

/* What a page, globals or a file lacks, for the listener. */
struct lacks {
    hayro_jbig2_passed_over passed; /* in a page */
    hayro_jbig2_left_out left_out;  /* of a list of segments, and pages of a file */
};

struct context {
    struct allocator *allocator;
    hayro_jbig2_memory memory;
    listener *listen;
    void *listener_data;
    bool is_embedded, is_complete;
    uint32_t answer; /* once it is complete */
    struct bytes bytes;
    struct share share;
    struct page *ready, *handed_out;
    struct open_file open;
    struct lacks lacks;
    struct globals made; /* what jbig2_make_global_ctx makes of the context */
};

/* messages.c: the listener is called last, when nothing is half done */

void tell(struct context *context, enum severity severity, uint32_t segment, const char *text);
/* Says what was done, or was to be done, and the text of an answer of the decoder or of a reason. */
void tell_answer(struct context *context, enum severity severity, uint32_t segment, const char *what, uint32_t answer);

/* globals.c */

bool take_share(struct context *context, struct globals *globals);
void drop_share(struct context *context);
/* The page that the gathered bytes have, over the globals, which stay until free_stream: call that after an error too. */
uint32_t new_stream(struct context *context, hayro_jbig2_page **stream);
void free_stream(struct context *context, hayro_jbig2_page *stream);

/* reading.c: salvage, or lenient reading where the environment asks for it */

uint32_t read_globals(const hayro_jbig2_memory *memory, const struct bytes *bytes, hayro_jbig2_globals **globals);
uint32_t read_page(const hayro_jbig2_memory *memory, hayro_jbig2_globals *globals, const struct bytes *bytes,
                   hayro_jbig2_page **page);
uint32_t read_file(const hayro_jbig2_memory *memory, const struct bytes *bytes, hayro_jbig2_file **file);

/* limit.c */

/* The work that globals, and what the pages of a file share, may take, and a page at least. */
uint64_t least_work(void);
/* Limits the work of the page that is drawn in the room next: by its pixels. */
uint32_t limit_room(hayro_jbig2_context *room, const hayro_jbig2_page_info *info);

/* drawing.c */

/* The room that pages are drawn in. */
uint32_t new_room(struct context *context, hayro_jbig2_context **room);
/* The page that was drawn in it last, copied into the caller's memory. What was passed over is noted. */
uint32_t copy_out(struct context *context, hayro_jbig2_context *room, const hayro_jbig2_page_info *info,
                  struct page **page);
uint32_t draw_embedded(struct context *context, struct page **page);

/* left_out.c */

/* One warning of each kind, with the number of the first segment. They are given once. */
void tell_lacks(struct context *context);

/* file.c */

/* What is opened is closed by close_file, also after an error. */
uint32_t open_file(struct context *context);
void close_file(struct context *context);
bool has_next(const struct context *context);
uint32_t draw_next(struct context *context, struct page **page);

/* image.c */

struct page *new_page(struct allocator *allocator, uint32_t width, uint32_t height);
/* The context gives up its hold. */
void let_page_go(struct page *page);

/* context.c */

void free_context(struct context *context);

#endif

/* An input that is open: its pages, and what they share. */
#ifndef HAYRO_TOOL_DOCUMENT_H
#define HAYRO_TOOL_DOCUMENT_H

#include "input.h"
#include "memory.h"
#include "messages.h"
#include "segments.h"

#include <pthread.h>

enum way { LENIENT, STRICT, SALVAGE };

/* How pages are read. */
struct reading {
    enum way way; /* where strict reading refuses a page */
    bool has_own_work;
    uint64_t work; /* for a page and for what pages share, where it is the caller's */
    size_t memory; /* the most that the decoder may take at once for either */
};

/* The limit of work for some pixels (docs/SECURITY.md): at most that of the largest page. */
uint64_t work_for(const struct reading *reading, uint64_t pixels);

/* A page of a file, an embedded page, or an image of a PDF file. */
struct image {
    size_t page;     /* from 1 */
    size_t nth, all; /* which image of this page of a PDF file, and of how many */
    int object, generation;
    struct globals *globals; /* or NULL */
    uint32_t width, height;  /* as a PDF file says */
    bool is_inverted, is_mask;
};

struct faults;

/* Globals that are decoded once, when the first page needs them. */
struct globals {
    pthread_mutex_t lock; /* while they are decoded or shared */
    struct bytes bytes;
    int object, generation;
    bool is_of_several_files; /* so they aren't the document's own */
    size_t files;             /* that may share them */
    bool has_pixels;
    uint64_t pixels; /* of the pages that share them */
    size_t pages;    /* of a PDF file, that need them still */
    bool is_read;
    struct segment_list list;
    struct budget budget;
    hayro_jbig2_globals *handle;
    uint32_t answer; /* why there is no handle */
    uint32_t strict_answer;
    hayro_jbig2_left_out left_out;
    struct text reason;    /* why a PDF file has no bytes of them, or is damaged there */
    struct faults *faults; /* what is wrong with them once they are read, found once for all pages */
};

/* A file that is read. Each thread takes one of its own. */
struct reader {
    struct budget budget;
    hayro_jbig2_file *file;
    bool has_shared; /* what the pages share was made by itself, to find a fault */
    hayro_jbig2_globals *shared;
    struct reader *next;
};

struct document {
    const char *word; /* that names it */
    const char *name; /* as messages name it */
    enum kind kind;
    struct reading reading;
    struct bytes bytes;
    struct image *images;
    size_t count;
    size_t pages; /* the last page's number */
    struct globals **globals;
    size_t globals_count;
    pthread_mutex_t lock; /* for readers and the PDF file */
    /* Of a file: */
    struct file_header header;
    struct segment_list list;
    uint32_t strict_answer; /* why strict reading refuses the file, or 0 */
    uint32_t refusal;       /* why it can't be read at all, or 0 */
    hayro_jbig2_left_out left_out;
    struct reader *strict_readers, *other_readers; /* those that no thread uses */
    /* Of a PDF file: */
    struct text damage; /* what qpdf had to mend, or "" */
    struct pdf *pdf;
};

/* Opens an input by its word. It takes over the bytes. `globals` is what an embedded page needs besides, or NULL; it takes them
 * over too unless they are of several files. Where it can't be opened, a line of messages says why. */
enum status open_document(struct document *document, const char *word, struct bytes bytes, struct globals *globals,
                          const char *password, struct text *messages);
void close_document(struct document *document);
void add_globals(struct document *document, struct globals *globals);

/* What messages call a page: "scan.jb2: page 2: ". */
void add_place(struct text *text, const struct document *document, size_t index);

#endif

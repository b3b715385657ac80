/* The objects of a PDF file: its pages, and those that a page's images are among. Each is looked at once, however often
 * the file refers to it. */
#ifndef HAYRO_TOOL_PDF_OBJECTS_H
#define HAYRO_TOOL_PDF_OBJECTS_H

#include "document.h"

#include <qpdf/qpdf-c.h>

struct pdf {
    qpdf_data qpdf;
    void *seen;    /* a tree of the numbers of objects that came up */
    void *globals; /* a tree of the document's globals */
};

/* Whether an object of the file comes up for the first time. */
bool is_new(struct pdf *pdf, qpdf_oh object);
void forget_objects(struct pdf *pdf);

/* Goes through the pages, and adds the JBIG2 images that each is the first to use. */
void find_pages(struct document *document);
/* Adds the images below a page's resources, or below what draws an annotation. */
void find_images(struct document *document, qpdf_oh object, size_t page);
/* Where /JBIG2Decode is among a stream's filters, if it is the last; else -1. */
int filter_index_of_jbig2(qpdf_data qpdf, qpdf_oh dictionary);

#endif

/* PDF files of pages that each show one JBIG2 image. */
#ifndef HAYRO_TOOL_PDF_WRITER_H
#define HAYRO_TOOL_PDF_WRITER_H

#include "bilevel.h"

/* The resolution of an image that states none, in pixels for each inch. */
enum { USUAL_RESOLUTION = 300 };

/* It begins as {.file = FILE}. Each call returns false with errno where the file can't be written. */
struct pdf_writer {
    FILE *file;
    uint64_t length;
    uint64_t *places; /* of the objects from number 3 on */
    size_t count;
};

bool begin_pdf(struct pdf_writer *pdf);
/* A page of the image's size by its resolution, which shows this stream. */
bool add_pdf_page(struct pdf_writer *pdf, const struct bilevel *image, const struct bytes *stream);
bool end_pdf(struct pdf_writer *pdf);
void free_pdf(struct pdf_writer *pdf);

#endif

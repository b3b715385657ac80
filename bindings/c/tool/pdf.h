/* The JBIG2 images of a PDF file, by qpdf's library. */
#ifndef HAYRO_TOOL_PDF_H
#define HAYRO_TOOL_PDF_H

#include "document.h"

/* Whether PDF files can be read, and the version of the library that reads them, or NULL. */
const char *pdf_library_version(void);

enum status open_pdf(struct document *document, const char *password, struct text *messages);
void close_pdf(struct document *document);

/* The bytes of a stream after the filters before /JBIG2Decode. One thread at a time calls it. False with the reason.
 * There is a reason too where the bytes are there, but the file is damaged. */
bool read_pdf_stream(struct document *document, int object, int generation, struct bytes *bytes, struct text *reason);

#endif

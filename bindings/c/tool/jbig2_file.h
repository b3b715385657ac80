/* A JBIG2 file with its header. */
#ifndef HAYRO_TOOL_JBIG2_FILE_H
#define HAYRO_TOOL_JBIG2_FILE_H

#include "document.h"

enum status open_file(struct document *document, struct text *messages);
void close_file(struct document *document);

/* A reader for a thread, of strict reading or of the other way, or NULL with the reason. */
struct reader *take_reader(struct document *document, bool is_strict, uint32_t *answer);
void give_back_reader(struct document *document, bool is_strict, struct reader *reader);

#endif

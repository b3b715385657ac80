#include "platform.h"

#include "drawing.h"
#include "globals.h"
#include "pdf.h"

/* The document is locked meanwhile, since one thread at a time reads a PDF file. */
static bool read_stream(struct document *document, size_t index, struct source *source, struct fault *fault) {
    const struct image *image = &document->images[index];
    struct text reason = {NULL, 0, 0};
    pthread_mutex_lock(&document->lock);
    source->is_own = read_pdf_stream(document, image->object, image->generation, &source->stream, &reason);
    pthread_mutex_unlock(&document->lock);
    source->is_damaged = source->is_own && reason.length > 0;
    if (!source->is_own || source->is_damaged)
        *fault = fault_of_pdf(source->is_own ? DAMAGED_PDF : CANT_BE_READ, &reason);
    free_text(&reason);
    return source->is_own;
}

bool open_source(struct document *document, size_t index, struct source *source, struct fault *fault) {
    *source = (struct source){.globals = document->images[index].globals};
    if (document->kind == KIND_FILE)
        return true;
    if (document->kind == KIND_EMBEDDED)
        source->stream = document->bytes;
    else if (!read_stream(document, index, source, fault))
        return false;
    return source->globals == NULL || share_globals(document, source->globals, &source->handle, fault);
}

void close_source(struct source *source) {
    hayro_jbig2_globals_free(source->handle);
    if (source->is_own)
        free_bytes(&source->stream);
}

#include "platform.h"

#include "pdf.h"

#ifdef HAVE_QPDF

#include "pdf_objects.h"

#include <qpdf/qpdf-c.h>
#include <stdlib.h>
#include <string.h>

const char *pdf_library_version(void) { return qpdf_get_qpdf_version(); }

/* Never empty, since an empty reason is none. */
static const char *detail_of(qpdf_data qpdf, qpdf_error error) {
    const char *detail = qpdf_get_error_message_detail(qpdf, error);
    return detail != NULL && detail[0] != '\0' ? detail : "libqpdf doesn't say why";
}

static enum status refuse_pdf(const struct document *document, struct text *messages) {
    qpdf_data qpdf = document->pdf->qpdf;
    qpdf_error error = qpdf_has_error(qpdf) ? qpdf_get_error(qpdf) : NULL;
    if (error != NULL && qpdf_get_error_code(qpdf, error) == qpdf_e_password)
        add_text(messages, "%s: the PDF file is encrypted: give its password by --password\n", document->name);
    else
        add_text(messages, "%s: the PDF file can't be read: %s\n", document->name,
                 error != NULL ? detail_of(qpdf, error) : "it has no pages");
    return NOT_DONE;
}

/* How many images each page has, and how many pixels share globals. */
static void count_images(struct document *document) {
    for (size_t first = 0, end; first < document->count; first = end) {
        struct image *images = document->images;
        for (end = first; end < document->count && images[end].page == images[first].page; end++)
            images[end].nth = end - first + 1;
        for (size_t i = first; i < end; i++)
            images[i].all = end - first;
    }
    for (size_t i = 0; i < document->count; i++) {
        struct image *image = &document->images[i];
        if (image->globals == NULL)
            continue;
        image->globals->pixels += (uint64_t)image->width * image->height;
        image->globals->pages++;
    }
}

/* Adds the first warning that came since, and forgets all. */
static void add_warning(qpdf_data qpdf, struct text *text) {
    for (bool is_first = true; qpdf_more_warnings(qpdf); is_first = false) {
        qpdf_error warning = qpdf_next_warning(qpdf);
        if (is_first)
            add_text(text, "%s%s", text->length > 0 ? "; " : "", detail_of(qpdf, warning));
    }
}

enum status open_pdf(struct document *document, const char *password, struct text *messages) {
    struct pdf *pdf = document->pdf = room_for(sizeof *pdf);
    *pdf = (struct pdf){.qpdf = qpdf_init()};
    qpdf_silence_errors(pdf->qpdf);
    qpdf_set_suppress_warnings(pdf->qpdf, QPDF_TRUE);
    QPDF_ERROR_CODE code =
        qpdf_read_memory(pdf->qpdf, document->name, (const char *)document->bytes.at, document->bytes.length, password);
    if (code & QPDF_ERRORS)
        return refuse_pdf(document, messages);
    find_pages(document);
    if (document->pages == 0)
        return refuse_pdf(document, messages);
    count_images(document);
    /* What qpdf mended may have lost pages. */
    struct text *damage = &document->damage;
    add_warning(pdf->qpdf, damage);
    if (damage->length > 0)
        add_text(messages, "%s: the PDF file is damaged: %s\n", document->name, damage->at);
    if (document->count > 0)
        return damage->length > 0 ? INCOMPLETE : ALL_WHOLE;
    add_text(messages, "%s: the PDF file has no JBIG2 image\n", document->name);
    return NOT_DONE;
}

void close_pdf(struct document *document) {
    if (document->pdf == NULL)
        return;
    qpdf_cleanup(&document->pdf->qpdf);
    forget_objects(document->pdf);
    free_text(&document->damage);
    free(document->pdf);
    document->pdf = NULL;
}

/* A stream with the same bytes, and the filters before the last. */
static qpdf_oh stream_without_last_filter(qpdf_data qpdf, qpdf_oh stream) {
    unsigned char *raw = NULL;
    size_t length = 0;
    if (qpdf_oh_get_stream_data(qpdf, stream, qpdf_dl_none, NULL, &raw, &length) & QPDF_ERRORS)
        return 0;
    qpdf_oh dictionary = qpdf_oh_get_dict(qpdf, stream);
    qpdf_oh filters = qpdf_oh_new_object(qpdf, qpdf_oh_get_key(qpdf, dictionary, "/Filter"));
    qpdf_oh parameters = qpdf_oh_get_key(qpdf, dictionary, "/DecodeParms");
    qpdf_oh first_filters = qpdf_oh_new_array(qpdf), first_parameters = qpdf_oh_new_array(qpdf);
    for (int i = 0; i + 1 < qpdf_oh_get_array_n_items(qpdf, filters); i++) {
        bool has_parameters = qpdf_oh_is_array(qpdf, parameters) && i < qpdf_oh_get_array_n_items(qpdf, parameters);
        qpdf_oh_append_item(qpdf, first_filters, qpdf_oh_get_array_item(qpdf, filters, i));
        qpdf_oh_append_item(qpdf, first_parameters,
                            has_parameters ? qpdf_oh_get_array_item(qpdf, parameters, i) : qpdf_oh_new_null(qpdf));
    }
    qpdf_oh made = qpdf_oh_new_stream(qpdf);
    qpdf_oh_replace_stream_data(qpdf, made, raw, length, first_filters, first_parameters);
    free(raw);
    return made;
}

/* A stream that was made would keep its bytes until the file is closed. */
static void forget_stream(qpdf_data qpdf, qpdf_oh stream) {
    if (qpdf_oh_is_stream(qpdf, stream))
        qpdf_replace_object(qpdf, qpdf_oh_get_object_id(qpdf, stream), qpdf_oh_get_generation(qpdf, stream),
                            qpdf_oh_new_null(qpdf));
}

static bool has_filters_before(qpdf_data qpdf, qpdf_oh stream) {
    qpdf_oh filters = qpdf_oh_get_key(qpdf, qpdf_oh_get_dict(qpdf, stream), "/Filter");
    return qpdf_oh_is_array(qpdf, filters) && qpdf_oh_get_array_n_items(qpdf, filters) > 1;
}

static bool is_jbig2(qpdf_data qpdf, qpdf_oh stream) {
    return filter_index_of_jbig2(qpdf, qpdf_oh_get_dict(qpdf, stream)) >= 0;
}

/* Packed segments are about as long as they are unpacked. What is far longer takes many times its length to be listed. */
static bool is_too_long(const struct document *document, size_t length) {
    enum { MOST_UNPACKED = 1 << 24 };
    return length > MOST_UNPACKED && length > document->bytes.length;
}

/* Why a stream can't be read, if nothing was said. */
static void add_reason(qpdf_data qpdf, struct text *reason) {
    if (reason->length == 0 && qpdf_has_error(qpdf))
        add_text(reason, "%s", detail_of(qpdf, qpdf_get_error(qpdf)));
    else if (reason->length == 0)
        add_text(reason, "its filters can't be undone");
}

bool read_pdf_stream(struct document *document, int object, int generation, struct bytes *bytes, struct text *reason) {
    qpdf_data qpdf = document->pdf->qpdf;
    /* An error that is still there would be taken for one of this stream. */
    if (qpdf_has_error(qpdf))
        qpdf_get_error(qpdf);
    qpdf_oh stream = qpdf_get_object_by_id(qpdf, object, generation);
    enum qpdf_stream_decode_level_e level = qpdf_dl_all;
    QPDF_BOOL is_decoded = QPDF_TRUE;
    unsigned char *data = NULL;
    size_t length = 0;
    bool is_image = is_jbig2(qpdf, stream), has_before = is_image && has_filters_before(qpdf, stream);
    if (has_before)
        stream = stream_without_last_filter(qpdf, stream);
    else if (is_image)
        level = qpdf_dl_none;
    bool is_read =
        stream != 0 && !(qpdf_oh_get_stream_data(qpdf, stream, level, &is_decoded, &data, &length) & QPDF_ERRORS);
    add_warning(qpdf, reason);
    if (is_read && is_too_long(document, length))
        add_text(reason, "%sit unpacks to %zu bytes", reason->length > 0 ? "; " : "", length);
    if (is_read && ((level == qpdf_dl_all && !is_decoded) || is_too_long(document, length))) {
        free(data);
        is_read = false;
    }
    /* libqpdf returns no bytes as NULL, which the decoder doesn't take. */
    if (is_read)
        *bytes = (struct bytes){data != NULL ? data : room_for(0), length};
    else
        add_reason(qpdf, reason);
    if (has_before && stream != 0)
        forget_stream(qpdf, stream);
    qpdf_oh_release_all(qpdf);
    return is_read;
}

#else

const char *pdf_library_version(void) { return NULL; }

enum status open_pdf(struct document *document, const char *password, struct text *messages) {
    (void)password;
    add_text(messages, "%s: a PDF file, which this program was built without libqpdf (Debian's libqpdf-dev) to read\n",
             document->name);
    return NOT_DONE;
}

void close_pdf(struct document *document) { (void)document; }

bool read_pdf_stream(struct document *document, int object, int generation, struct bytes *bytes, struct text *reason) {
    (void)document, (void)object, (void)generation, (void)bytes;
    add_text(reason, "built without libqpdf");
    return false;
}

#endif

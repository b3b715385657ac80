#include "platform.h"

#include "write.h"

#include "bilevel.h"
#include "file_names.h"
#include "output.h"
#include "pdf_writer.h"

#include <errno.h>
#include <stdlib.h>
#include <string.h>

/* What is written. A single PDF file gets a page after the other. */
struct writing {
    const struct words *words;
    const char *single_name; /* NULL: standard output, or a file for each image */
    bool is_single;
    struct names names;
    struct output output;
    struct pdf_writer pdf;
    bool is_pdf_open;
};

/* A picture as it is written. */
struct page {
    struct bilevel image; /* without its rows */
    struct bytes stream;
};

/* The pictures of an input. */
struct pages {
    const struct writing *writing;
    struct page *at;
    size_t count;
};

static bool copy_written(hayro_jbig2_written *written, struct bytes *stream) {
    stream->length = hayro_jbig2_written_length(written);
    stream->at = room_for(stream->length);
    bool is_copied = hayro_jbig2_written_bytes(written, stream->at, stream->length) == HAYRO_JBIG2_OK;
    hayro_jbig2_written_free(written);
    return is_copied;
}

/* The image as a page or a file. */
static bool encode(const struct writing *writing, const struct bilevel *image, struct bytes *stream,
                   struct text *reason) {
    hayro_jbig2_write_settings settings = writing->words->writing;
    hayro_jbig2_written *written = NULL;
    settings.x_resolution = image->x_resolution;
    settings.y_resolution = image->y_resolution;
    settings.whole_file = writing->words->format == FORMAT_JBIG2;
    *stream = (struct bytes){NULL, 0};
    uint32_t answer = hayro_jbig2_written_new(NULL, image->rows, bilevel_row_size(image) * image->height, image->width,
                                              image->height, &settings, &written);
    if (answer == HAYRO_JBIG2_OK && copy_written(written, stream))
        return true;
    free_bytes(stream);
    add_text(reason, "%s", hayro_jbig2_error_text(answer));
    return false;
}

/* Of many pages less is kept than their rows. */
static bool take_image(void *user, const struct bilevel *image, struct text *reason) {
    struct pages *pages = user;
    struct page page = {.image = *image};
    uint32_t resolution = pages->writing->words->resolution;
    if (resolution > 0)
        page.image.x_resolution = page.image.y_resolution = resolution;
    if (!encode(pages->writing, &page.image, &page.stream, reason))
        return false;
    page.image.rows = NULL;
    pages->at = larger_room(pages->at, (pages->count + 1) * sizeof *pages->at);
    pages->at[pages->count++] = page;
    return true;
}

static void free_pages(struct pages *pages) {
    for (size_t i = 0; i < pages->count; i++)
        free_bytes(&pages->at[i].stream);
    free(pages->at);
}

/* A PDF file of one page. */
static bool add_pdf(struct output *output, const struct page *page, struct text *reason) {
    struct pdf_writer pdf = {.file = output->file};
    bool is_written = begin_pdf(&pdf) && add_pdf_page(&pdf, &page->image, &page->stream) && end_pdf(&pdf);
    if (!is_written)
        fail_by_system(output, reason);
    free_pdf(&pdf);
    return is_written;
}

static bool add_all(struct output *output, const struct page *page, struct text *reason) {
    return output->format == FORMAT_PDF ? add_pdf(output, page, reason) : add_stream(output, &page->stream, reason);
}

static bool write_file(const struct writing *writing, const char *name, const struct page *page, struct text *reason) {
    struct output output;
    const struct words *words = writing->words;
    if (open_output(&output, name, words->format, words->is_forced, reason) && add_all(&output, page, reason))
        return finish_output(&output, reason);
    abandon_output(&output);
    return false;
}

/* A file for each image, or the only image to the output that is named. */
static bool write_own_file(struct writing *writing, const char *input, const struct pages *pages, size_t index,
                           struct text *reason) {
    const struct page *page = &pages->at[index];
    if (writing->is_single)
        return write_file(writing, writing->single_name, page, reason);
    char *name = file_name_of_picture(writing->words, input, index + 1, pages->count);
    if (add_name(&writing->names, name))
        return write_file(writing, name, page, reason);
    add_text(reason, "%s: picture %zu: another of this run has the name of its file", shown_name(input), index + 1);
    return false;
}

static bool add_page(struct writing *writing, const struct page *page, struct text *reason) {
    const struct words *words = writing->words;
    struct output *output = &writing->output;
    if (!writing->is_pdf_open) {
        if (!open_output(output, writing->single_name, FORMAT_PDF, words->is_forced, reason)) {
            abandon_output(output);
            return false;
        }
        writing->pdf = (struct pdf_writer){.file = output->file};
        writing->is_pdf_open = true;
        if (!begin_pdf(&writing->pdf))
            return fail_by_system(output, reason);
    }
    return add_pdf_page(&writing->pdf, &page->image, &page->stream) || fail_by_system(output, reason);
}

static bool is_one_pdf(const struct writing *writing) {
    return writing->is_single && writing->words->format == FORMAT_PDF;
}

/* A JBIG2 file that is written has one page. */
static bool has_place_for(const struct writing *writing, const struct pages *pages, struct text *reason) {
    bool is_alone = pages->count == 1 && writing->words->input_count == 1;
    if (is_alone || !writing->is_single || writing->words->format == FORMAT_PDF)
        return true;
    add_text(reason, "a file that is written holds one page: name a PDF file or a folder for several");
    return false;
}

/* Says which input has the fault, and which of its pictures if it is a later one. */
static void name_input(const char *name, size_t number, struct text *reason) {
    struct text fault = *reason;
    *reason = (struct text){NULL, 0, 0};
    add_text(reason, "%s: ", shown_name(name));
    if (number > 1)
        add_text(reason, "picture %zu: ", number);
    add_text(reason, "%s", fault.at);
    free_text(&fault);
}

static bool read_pages(const struct writing *writing, const char *name, struct pages *pages, struct text *reason) {
    const struct taker taker = {take_image, pages};
    struct bytes bytes = {NULL, 0};
    bool is_read = read_input(name, &bytes);
    if (!is_read)
        add_text(reason, "%s", strerror(errno));
    is_read = is_read && read_bilevels(&bytes, &taker, reason);
    bool has_place = is_read && has_place_for(writing, pages, reason);
    if (!has_place)
        name_input(name, is_read ? 1 : pages->count + 1, reason);
    free_bytes(&bytes);
    return has_place;
}

/* Says why something wasn't done. */
static bool or_said(bool is_done, struct text *reason) {
    if (!is_done)
        complain("%s", reason->at);
    free_text(reason);
    return is_done;
}

/* A PDF file ends with the first page that it can't get. Of files of their own each is tried. */
static bool write_input(struct writing *writing, const char *name) {
    struct pages pages = {writing, NULL, 0};
    struct text reason = {NULL, 0, 0};
    bool is_written = or_said(read_pages(writing, name, &pages, &reason), &reason), goes_on = is_written;
    for (size_t i = 0; i < pages.count && goes_on; i++) {
        bool is_done = is_one_pdf(writing) ? add_page(writing, &pages.at[i], &reason)
                                           : write_own_file(writing, name, &pages, i, &reason);
        is_written = or_said(is_done, &reason) && is_written;
        goes_on = is_done || !is_one_pdf(writing);
    }
    free_pages(&pages);
    return is_written;
}

/* A PDF file that lacks pages doesn't appear. */
static enum status finish_pdf(struct writing *writing, enum status status) {
    struct text reason = {NULL, 0, 0};
    if (!writing->is_pdf_open)
        return status;
    bool is_written = status == ALL_WHOLE;
    if (is_written)
        is_written = or_said(end_pdf(&writing->pdf) || fail_by_system(&writing->output, &reason), &reason);
    free_pdf(&writing->pdf);
    if (is_written)
        is_written = or_said(finish_output(&writing->output, &reason), &reason);
    else
        abandon_output(&writing->output);
    return is_written ? ALL_WHOLE : NOT_DONE;
}

static enum status write_inputs(const struct words *words) {
    struct writing writing = {.words = words};
    enum status status = ALL_WHOLE;
    writing.is_single = has_single_output(words, &writing.single_name);
    for (size_t i = 0; i < words->input_count && (status == ALL_WHOLE || !is_one_pdf(&writing)); i++)
        if (!write_input(&writing, words->inputs[i]))
            status = NOT_DONE;
    free_names(&writing.names);
    return finish_pdf(&writing, status);
}

enum status write_all(const struct words *words) {
    struct text messages = {NULL, 0, 0};
    enum status status = make_folder(words, &messages) ? write_inputs(words) : NOT_DONE;
    print_messages(&messages);
    free_text(&messages);
    return status;
}

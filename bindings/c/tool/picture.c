#include "platform.h"

#include "picture.h"

#include <stdlib.h>

size_t row_size(const struct picture *picture) { return ((size_t)picture->width + 7) / 8; }

bool read_rows(const struct picture *picture, uint32_t first, uint32_t count, uint8_t *rows) {
    size_t size = row_size(picture);
    return hayro_jbig2_context_rows(picture->context, first * size, rows, count * size) == HAYRO_JBIG2_OK;
}

uint32_t rows_at_once(const struct picture *picture) {
    size_t count = (1 << 16) / row_size(picture);
    return count < 1 ? 1 : count > picture->height ? picture->height : (uint32_t)count;
}

const char *name_of_format(enum format format) {
    static const char *const names[] = {"png", "pbm", "tiff", "jb2", "jb2e", "pdf"};
    return names[format];
}

bool is_drawn_format(enum format format) { return format <= FORMAT_TIFF; }

const char *version_of_format(enum format format) {
    switch (format) {
    case FORMAT_PNG:
        return png_library_version();
    case FORMAT_TIFF:
        return tiff_library_version();
    default:
        return "";
    }
}

void add_missing_package(struct text *text, enum format format) {
    bool is_png = format == FORMAT_PNG;
    add_text(text, "%s needs %s (Debian's %s), which this program was built without; PBM needs nothing",
             is_png ? "PNG" : "TIFF", is_png ? "libpng" : "libtiff", is_png ? "libpng-dev" : "libtiff-dev");
}

/* Pages with many more rows than a scanner's are written piece by piece. */
void prepare_picture(struct picture *picture, enum format format) {
    enum { MOST = 1 << 24 };
    size_t size = row_size(picture) * picture->height;
    if (size > MOST || (format == FORMAT_TIFF && code_for_tiff(picture)) || format != FORMAT_PBM)
        return;
    picture->ready = room_for(size);
    picture->ready_size = size;
    if (!read_rows(picture, 0, picture->height, picture->ready))
        free_prepared(picture);
}

void free_prepared(struct picture *picture) {
    free(picture->ready);
    picture->ready = NULL;
}

bool write_pbm(FILE *file, const struct picture *picture, struct text *reason) {
    bool is_written = fprintf(file, "P4\n%lu %lu\n", (unsigned long)picture->width, (unsigned long)picture->height) > 0;
    (void)reason;
    if (picture->ready != NULL)
        return is_written && fwrite(picture->ready, 1, picture->ready_size, file) == picture->ready_size;
    uint32_t at_once = rows_at_once(picture);
    uint8_t *rows = room_for(at_once * row_size(picture));
    for (uint32_t y = 0; y < picture->height && is_written; y += at_once) {
        uint32_t count = picture->height - y < at_once ? picture->height - y : at_once;
        is_written = read_rows(picture, y, count, rows) && fwrite(rows, row_size(picture), count, file) == count;
    }
    free(rows);
    return is_written;
}

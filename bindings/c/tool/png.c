#include "platform.h"

#include "picture.h"

#ifdef HAVE_PNG

#include <png.h>
#include <stdlib.h>

const char *png_library_version(void) { return png_get_libpng_ver(NULL); }

/* libpng returns from its errors by a jump to the caller of write_by_libpng. */
static void note_error(png_structp png, png_const_charp message) {
    add_text(png_get_error_ptr(png), "%s", message);
    png_longjmp(png, 1);
}

static void ignore_warning(png_structp png, png_const_charp message) { (void)png, (void)message; }

static void write_header(png_structp png, png_infop info, const struct picture *picture) {
    png_set_IHDR(png, info, picture->width, picture->height, 1, PNG_COLOR_TYPE_GRAY, PNG_INTERLACE_NONE,
                 PNG_COMPRESSION_TYPE_DEFAULT, PNG_FILTER_TYPE_DEFAULT);
    /* A PNG file has no number above 2^31 - 1. */
    uint32_t x = picture->x_resolution, y = picture->y_resolution;
    if (x > 0 && y > 0 && x <= PNG_UINT_31_MAX && y <= PNG_UINT_31_MAX)
        png_set_pHYs(png, info, x, y, PNG_RESOLUTION_METER);
    png_write_info(png, info);
    png_set_invert_mono(png);
}

static bool write_by_libpng(png_structp png, png_infop info, const struct picture *picture, FILE *file, uint8_t *rows) {
    uint32_t at_once = rows_at_once(picture);
    if (setjmp(png_jmpbuf(png)))
        return false;
    png_init_io(png, file);
    write_header(png, info, picture);
    for (uint32_t y = 0; y < picture->height; y += at_once) {
        uint32_t count = picture->height - y < at_once ? picture->height - y : at_once;
        if (!read_rows(picture, y, count, rows))
            png_error(png, "the rows are not there");
        for (uint32_t i = 0; i < count; i++)
            png_write_row(png, rows + i * row_size(picture));
    }
    png_write_end(png, info);
    return true;
}

bool write_png(FILE *file, const struct picture *picture, struct text *reason) {
    png_structp png = png_create_write_struct(PNG_LIBPNG_VER_STRING, reason, note_error, ignore_warning);
    png_infop info = png != NULL ? png_create_info_struct(png) : NULL;
    uint8_t *rows = room_for(rows_at_once(picture) * row_size(picture));
    bool is_written = info != NULL && write_by_libpng(png, info, picture, file, rows);
    free(rows);
    png_destroy_write_struct(&png, &info);
    return is_written;
}

#else

const char *png_library_version(void) { return NULL; }

bool write_png(FILE *file, const struct picture *picture, struct text *reason) {
    (void)file, (void)picture;
    add_missing_package(reason, FORMAT_PNG);
    return false;
}

#endif

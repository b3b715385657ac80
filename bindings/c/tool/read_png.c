#include "platform.h"

#include "bilevel.h"
#include "picture.h"

#ifdef HAVE_PNG

#include <png.h>
#include <stdlib.h>
#include <string.h>

/* A PNG file that is read. libpng returns from its errors by a jump, so all that is to be freed is here. */
struct reading_png {
    struct place {
        const uint8_t *at;
        size_t left;
    } place;
    struct text *reason;
    struct bilevel image;
    uint8_t *pixels;
    png_bytep *rows;
    png_colorp palette; /* libpng's; NULL where there is none */
    int palette_size;
};

static void note_error(png_structp png, png_const_charp message) {
    struct reading_png *reading = png_get_error_ptr(png);
    if (reading->reason->length == 0)
        add_text(reading->reason, "%s", message);
    png_longjmp(png, 1);
}

static void ignore_warning(png_structp png, png_const_charp message) { (void)png, (void)message; }

static void give_bytes(png_structp png, png_bytep room, png_size_t count) {
    struct place *place = png_get_io_ptr(png);
    if (place->left < count)
        png_error(png, "the PNG picture is cut off");
    memcpy(room, place->at, count);
    place->at += count;
    place->left -= count;
}

/* Gray of any depth, or a palette. The pixels, or their places in the palette, become bytes. */
static void ask_for_shades(png_structp png, png_infop info) {
    struct reading_png *reading = png_get_error_ptr(png);
    int type = png_get_color_type(png, info);
    bool is_clear = (type & PNG_COLOR_MASK_ALPHA) != 0 || png_get_valid(png, info, PNG_INFO_tRNS) != 0;
    if (is_clear)
        add_not_bilevel(reading->reason, "the picture has transparent pixels");
    else if (type == PNG_COLOR_TYPE_RGB)
        add_not_bilevel(reading->reason, "the picture has colours");
    if (is_clear || type == PNG_COLOR_TYPE_RGB)
        png_error(png, "");
    /* libpng would show black where a pixel has no colour in the palette. */
    if (type == PNG_COLOR_TYPE_PALETTE) {
        png_get_PLTE(png, info, &reading->palette, &reading->palette_size);
        png_set_packing(png);
    } else
        png_set_expand(png);
    png_set_interlace_handling(png);
    png_read_update_info(png, info);
}

static void note_resolution(png_structp png, png_infop info, struct bilevel *image) {
    png_uint_32 x = 0, y = 0;
    int unit = PNG_RESOLUTION_UNKNOWN;
    if (png_get_pHYs(png, info, &x, &y, &unit) != 0 && unit == PNG_RESOLUTION_METER) {
        image->x_resolution = x;
        image->y_resolution = y;
    }
}

/* The shades of a row's pixels in place of their places in the palette. */
static void find_shades(png_structp png, struct reading_png *reading, uint8_t *row) {
    for (uint32_t x = 0; x < reading->image.width; x++) {
        if (row[x] >= reading->palette_size)
            png_error(png, "the PNG picture is damaged: a pixel has no colour in the palette");
        png_color colour = reading->palette[row[x]];
        if (colour.red != colour.green || colour.red != colour.blue) {
            add_not_bilevel(reading->reason, "the picture has colours");
            png_error(png, "");
        }
        row[x] = colour.red;
    }
}

static void take_row(png_structp png, png_infop info, struct reading_png *reading, uint32_t y, uint8_t *row) {
    size_t size = png_get_rowbytes(png, info) / reading->image.width;
    if (reading->palette != NULL)
        find_shades(png, reading, row);
    if (pack_row(&reading->image, y, row, size))
        return;
    add_not_bilevel(reading->reason, "the picture has shades of gray");
    png_error(png, "");
}

/* Interlaced rows are known at the end alone. Others are taken one by one: they may be 16 times as large as packed ones. */
static void take_rows(png_structp png, png_infop info, struct reading_png *reading) {
    uint32_t height = reading->image.height;
    bool is_interlaced = png_get_interlace_type(png, info) != PNG_INTERLACE_NONE;
    size_t size = png_get_rowbytes(png, info), rows_at_once = is_interlaced ? height : 1;
    if (size > SIZE_MAX / rows_at_once)
        end_without_memory();
    reading->pixels = room_for(size * rows_at_once);
    if (is_interlaced) {
        reading->rows = room_for(height * sizeof *reading->rows);
        for (uint32_t y = 0; y < height; y++)
            reading->rows[y] = reading->pixels + y * size;
        png_read_image(png, reading->rows);
    }
    for (uint32_t y = 0; y < height; y++) {
        if (!is_interlaced)
            png_read_row(png, reading->pixels, NULL);
        take_row(png, info, reading, y, is_interlaced ? reading->rows[y] : reading->pixels);
    }
    png_read_end(png, NULL);
}

static bool read_by_libpng(png_structp png, png_infop info, struct reading_png *reading) {
    struct bilevel *image = &reading->image;
    if (setjmp(png_jmpbuf(png)))
        return false;
    png_set_read_fn(png, &reading->place, give_bytes);
    png_read_info(png, info);
    image->width = png_get_image_width(png, info);
    image->height = png_get_image_height(png, info);
    note_resolution(png, info, image);
    if (!make_rows(image, reading->reason))
        png_error(png, "");
    ask_for_shades(png, info);
    take_rows(png, info, reading);
    return true;
}

bool read_png(const struct bytes *bytes, const struct taker *taker, struct text *reason) {
    struct reading_png reading = {.place = {bytes->at, bytes->length}, .reason = reason};
    png_structp png = png_create_read_struct(PNG_LIBPNG_VER_STRING, &reading, note_error, ignore_warning);
    png_infop info = png != NULL ? png_create_info_struct(png) : NULL;
    bool is_read = info != NULL && read_by_libpng(png, info, &reading) && hand_over(taker, &reading.image, reason);
    if (info == NULL && reason->length == 0)
        add_text(reason, "libpng can't be used, for want of memory or since it is of another version");
    free(reading.image.rows);
    free(reading.rows);
    free(reading.pixels);
    png_destroy_read_struct(&png, &info, NULL);
    return is_read;
}

#else

bool read_png(const struct bytes *bytes, const struct taker *taker, struct text *reason) {
    (void)bytes, (void)taker;
    add_missing_package(reason, FORMAT_PNG);
    return false;
}

#endif

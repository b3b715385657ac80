/* The pictures that `write` takes: bi-level images in files of PNG, TIFF and PBM. */
#ifndef HAYRO_TOOL_BILEVEL_H
#define HAYRO_TOOL_BILEVEL_H

#include "input.h"
#include "messages.h"

#include <stdio.h>

/* A bit for each pixel, 1 is black, the leftmost the highest of its byte, and whole bytes for each row. */
struct bilevel {
    uint32_t width, height;
    uint32_t x_resolution, y_resolution; /* pixels for each metre; 0: not stated */
    uint8_t *rows;
};

/* The longest side that a page has. */
enum { LONGEST_SIDE = 65535 };

size_t bilevel_row_size(const struct bilevel *image);
/* Makes room for the rows. False with a reason where no page has such sides. */
bool make_rows(struct bilevel *image, struct text *reason);
/* Packs a row of `size` bytes each, whose pixels are 0 for black or the greatest number for white. False where one has
 * another shade. */
bool pack_row(struct bilevel *image, uint32_t y, const uint8_t *pixels, size_t size);
/* "the picture is gray; write takes black and white alone" */
void add_not_bilevel(struct text *reason, const char *what);

/* Who gets the images of a file in their order, each as soon as it is read, since all may be too many. False with a reason
 * ends the reading. */
struct taker {
    bool (*take)(void *user, const struct bilevel *image, struct text *reason);
    void *user;
};

/* Hands over an image, and frees its rows. */
bool hand_over(const struct taker *taker, struct bilevel *image, struct text *reason);

/* Reads all images of a file by its first bytes. False with a reason. */
bool read_bilevels(const struct bytes *bytes, const struct taker *taker, struct text *reason);

/* One format each, where the bytes begin as it does. */
bool read_pbm(const struct bytes *bytes, const struct taker *taker, struct text *reason);
bool read_png(const struct bytes *bytes, const struct taker *taker, struct text *reason);
bool read_tiff(const struct bytes *bytes, const struct taker *taker, struct text *reason);

#endif

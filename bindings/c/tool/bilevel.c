#include "platform.h"

#include "bilevel.h"

#include <stdlib.h>
#include <string.h>

size_t bilevel_row_size(const struct bilevel *image) { return ((size_t)image->width + 7) / 8; }

bool make_rows(struct bilevel *image, struct text *reason) {
    if (image->width < 1 || image->width > LONGEST_SIDE || image->height < 1 || image->height > LONGEST_SIDE) {
        add_text(reason, "it has %lu by %lu pixels, and a page has 1 to %d by 1 to %d", (unsigned long)image->width,
                 (unsigned long)image->height, LONGEST_SIDE, LONGEST_SIDE);
        return false;
    }
    size_t size = bilevel_row_size(image) * image->height;
    image->rows = room_for(size);
    memset(image->rows, 0, size);
    return true;
}

bool pack_row(struct bilevel *image, uint32_t y, const uint8_t *pixels, size_t size) {
    uint8_t *row = image->rows + y * bilevel_row_size(image);
    for (uint32_t x = 0; x < image->width; x++)
        for (size_t i = 0; i < size; i++) {
            uint8_t part = pixels[x * size + i];
            if (part != pixels[x * size] || (part != 0 && part != 255))
                return false;
            if (part == 0)
                row[x / 8] |= (uint8_t)(0x80 >> x % 8);
        }
    return true;
}

void add_not_bilevel(struct text *reason, const char *what) {
    add_text(reason, "%s; write takes black and white alone, so make it bi-level first", what);
}

bool hand_over(const struct taker *taker, struct bilevel *image, struct text *reason) {
    bool is_taken = taker->take(taker->user, image, reason);
    free(image->rows);
    image->rows = NULL;
    return is_taken;
}

bool read_bilevels(const struct bytes *bytes, const struct taker *taker, struct text *reason) {
    static const struct {
        const char *beginning;
        size_t length;
        bool (*read)(const struct bytes *, const struct taker *, struct text *);
    } formats[] = {
        {"\x89PNG", 4, read_png}, {"II*\0", 4, read_tiff}, {"MM\0*", 4, read_tiff}, {"II+\0", 4, read_tiff},
        {"MM\0+", 4, read_tiff},  {"P1", 2, read_pbm},     {"P4", 2, read_pbm},
    };
    for (size_t i = 0; i < sizeof formats / sizeof *formats; i++)
        if (bytes->length >= formats[i].length && memcmp(bytes->at, formats[i].beginning, formats[i].length) == 0)
            return formats[i].read(bytes, taker, reason);
    enum kind kind = kind_of(bytes);
    const char *name = kind == KIND_UNKNOWN ? look_of(bytes) : name_of_kind(kind, bytes);
    add_text(reason, "this is %s; write takes PNG, TIFF and PBM (P1 or P4)",
             name != NULL ? name : "nothing that this program knows");
    return false;
}

#include "platform.h"

#include "bilevel.h"

#include <ctype.h>
#include <stdlib.h>
#include <string.h>

/* Where the next byte of a PBM file is read. */
struct place {
    const uint8_t *at, *end;
};

/* Passes over a comment, which goes to the end of its line. */
static void pass_comment(struct place *place) {
    if (place->at < place->end && *place->at == '#')
        while (place->at < place->end && *place->at != '\n' && *place->at != '\r')
            place->at++;
}

static void pass_space(struct place *place) {
    pass_comment(place);
    while (place->at < place->end && isspace(*place->at)) {
        place->at++;
        pass_comment(place);
    }
}

/* A side; one that is too long stays too long. */
static bool read_side(struct place *place, uint32_t *side) {
    *side = 0;
    pass_space(place);
    if (place->at == place->end || !isdigit(*place->at))
        return false;
    for (; place->at < place->end && isdigit(*place->at); place->at++) {
        uint64_t longer = (uint64_t)*side * 10 + (uint64_t)(*place->at - '0');
        *side = longer < UINT32_MAX ? (uint32_t)longer : UINT32_MAX;
    }
    return true;
}

/* P1: a digit for each pixel. */
static bool read_digits(struct place *place, struct bilevel *image) {
    for (uint32_t y = 0; y < image->height; y++)
        for (uint32_t x = 0; x < image->width; x++) {
            pass_space(place);
            if (place->at == place->end || (*place->at != '0' && *place->at != '1'))
                return false;
            if (*place->at++ == '1')
                image->rows[y * bilevel_row_size(image) + x / 8] |= (uint8_t)(0x80 >> x % 8);
        }
    return true;
}

/* P4: packed rows after one character of white space, which may end a comment. */
static bool read_packed(struct place *place, struct bilevel *image) {
    size_t size = bilevel_row_size(image) * image->height;
    pass_comment(place);
    if (place->at == place->end || !isspace(*place->at++) || (size_t)(place->end - place->at) < size)
        return false;
    memcpy(image->rows, place->at, size);
    place->at += size;
    return true;
}

static bool read_picture(struct place *place, struct bilevel *image, struct text *reason) {
    bool is_packed = place->end - place->at >= 2 && place->at[1] == '4';
    if (place->end - place->at < 2 || place->at[0] != 'P' || (!is_packed && place->at[1] != '1')) {
        add_text(reason, "after a picture of PBM comes something else");
        return false;
    }
    place->at += 2;
    if (!read_side(place, &image->width) || !read_side(place, &image->height)) {
        add_text(reason, "the header of PBM is damaged");
        return false;
    }
    if (!make_rows(image, reason))
        return false;
    if (is_packed ? read_packed(place, image) : read_digits(place, image))
        return true;
    add_text(reason, "the picture of PBM is cut off or damaged");
    free(image->rows);
    return false;
}

bool read_pbm(const struct bytes *bytes, const struct taker *taker, struct text *reason) {
    struct place place = {bytes->at, bytes->at + bytes->length};
    do {
        struct bilevel image = {.width = 0};
        const uint8_t *start = place.at;
        if (!read_picture(&place, &image, reason) || !hand_over(taker, &image, reason))
            return false;
        /* Comments may come after digits too. */
        if (start[1] == '1')
            pass_space(&place);
        while (place.at < place.end && isspace(*place.at))
            place.at++;
    } while (place.at < place.end);
    return true;
}

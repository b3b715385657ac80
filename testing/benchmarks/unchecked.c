/*
 * How fast a generic region can be decoded: a loop for its pixels alone, without checks, beside which the program is measured.
 *
 * usage: unchecked FILE.jb2 [RUNS]
 *
 * FILE has one page, and as its first region a generic one by arithmetic coding, of template 0 or 3 with nominal adaptive pixels
 * and without typical prediction. Writes the least milliseconds of RUNS runs (1) to standard error and the page to standard
 * output, as PBM. It trusts the file.
 */
#include "unchecked.h"

enum { MARGIN = 16, GROUP = 8 };

/* `rows` has two white rows above the first, and margins. */
struct region {
    int template;
    size_t width, height, stride;
    uint8_t *rows;
    const uint8_t *begin, *end;
};

static uint8_t contexts[1 << 16];

static __attribute__((noinline)) unsigned called(struct decoder *decoder, uint8_t *context, struct state state,
                                                 uint32_t rest) {
    return renormalized(decoder, context, state, rest);
}

ALWAYS_INLINE unsigned decide(struct decoder *decoder, uint8_t *context) {
    uint8_t index = *context;
    struct state state = states[index];
    uint32_t rest = decoder->a - state.qe;
    if (rest < decoder->floor)
        return called(decoder, context, state, rest);
    decoder->a = rest;
    return index & 1;
}

ALWAYS_INLINE uint64_t eight(const uint8_t *bytes) {
    uint64_t word;
    memcpy(&word, bytes, sizeof word);
    return word;
}

/* How many of the next bytes, at most `most`, are white in a run: groups of eight, or one, whose view is white. */
ALWAYS_INLINE size_t white_bytes(struct decoder *decoder, const uint8_t *above, const uint8_t *top, size_t most) {
    uint32_t qe = states[contexts[0]].qe, bytes = 0;
    if (contexts[0] & 1 || decoder->a < decoder->floor)
        return 0;
    uint32_t room = decoder->a - decoder->floor;
    while (bytes + GROUP < most && room >= 8 * (bytes + GROUP) * qe &&
           (eight(above + bytes) | eight(above + bytes + 1) | eight(top + bytes) | eight(top + bytes + 1)) == 0)
        bytes += GROUP;
    if (bytes == 0 && room >= 8 * qe)
        bytes = 1;
    decoder->a -= 8 * bytes * qe;
    return bytes;
}

/* What a byte's pixels see: the context of the first, and the pixels that come into it in the two rows above. Of a context, the
 * four pixels on the left come first, then those of the row above, then those of the row above that. */
struct view {
    unsigned context, above, top;
};

ALWAYS_INLINE unsigned decode_pixels(unsigned mask, unsigned count, struct decoder *decoder, struct view *view) {
    unsigned byte = 0;
    for (unsigned k = 0; k < count; k++) {
        unsigned symbol = decide(decoder, &contexts[view->context]);
        unsigned higher = (view->above >> (7 - k) & 1) << 4 | (view->top >> (7 - k) & 1) << 11;
        view->context = (view->context << 1 & mask) | symbol | higher;
        byte = byte << 1 | symbol;
    }
    return byte << (8 - count);
}

ALWAYS_INLINE void decode_row(int template, struct decoder *decoder, uint8_t *row, size_t stride, size_t width) {
    const uint8_t *above = row - stride, *top = template == 0 ? above - stride : above;
    /* How far a context sees to the right in the row above, and where no bit is moved to. */
    const unsigned reach = template == 0 ? 3 : 2, mask = template == 0 ? 0xF7EE : 0x3EE;
    struct view view = {(unsigned)(above[0] >> (7 - reach) << 4), 0, 0};
    if (template == 0)
        view.context |= (unsigned)(top[0] >> 5 << 11);
    size_t whole = (width - 1) / 8;
    for (size_t i = 0; i <= whole;) {
        view.above = (unsigned)(above[i] << 8 | above[i + 1]) >> (7 - reach) & 0xFF;
        if (template == 0)
            view.top = (unsigned)(top[i] << 8 | top[i + 1]) >> 5 & 0xFF;
        size_t white = 0;
        if ((view.context | view.above | view.top) == 0 && i < whole)
            white = white_bytes(decoder, above + i, top + i, whole - i);
        memset(row + i, 0, white);
        i += white;
        if (white > 0)
            continue;
        unsigned byte = i < whole ? decode_pixels(mask, 8, decoder, &view)
                                  : decode_pixels(mask, (unsigned)(width - 8 * whole), decoder, &view);
        row[i++] = (uint8_t)byte;
    }
}

static __attribute__((noinline)) void decode(const struct region *region) {
    struct decoder decoder = new_decoder(region->begin, region->end);
    memset(contexts, 0, sizeof contexts);
    for (size_t y = 0; y < region->height; y++) {
        uint8_t *row = region->rows + (y + 2) * region->stride + MARGIN;
        if (region->template == 0)
            decode_row(0, &decoder, row, region->stride, region->width);
        else
            decode_row(3, &decoder, row, region->stride, region->width);
    }
}

/* The first region of a sequential file whose segments have small numbers and one byte for their page. */
static struct region region_of(const uint8_t *file, size_t size) {
    const uint8_t *at = file + (file[8] & 2 ? 9 : 13);
    while (at + 11 < file + size) {
        unsigned type = at[4] & 63, referred = at[5] >> 5;
        const uint8_t *data = at + 11 + referred, *end = data + number_at(data - 4);
        if (type == 36 || type == 38 || type == 39) {
            unsigned flags = data[17], template = flags >> 1 & 3;
            if (flags & 9 || (template != 0 && template != 3))
                fail("the region is of another kind");
            size_t width = number_at(data), height = number_at(data + 4), stride = (width + 7) / 8 + 2 * MARGIN;
            return (struct region){.template = (int)template,
                                   .width = width,
                                   .height = height,
                                   .stride = stride,
                                   .rows = calloc(height + 3, stride),
                                   .begin = data + 18 + (template == 0 ? 8 : 2),
                                   .end = end};
        }
        at = end;
    }
    fail("the file has no generic region");
    return (struct region){0};
}

int main(int count, char **words) {
    size_t size;
    if (count < 2)
        fail("usage: unchecked FILE.jb2 [RUNS]");
    const uint8_t *file = read_file(words[1], &size);
    struct region region = region_of(file, size);
    make_states();
    double least = 1e9;
    for (int runs = count > 2 ? atoi(words[2]) : 1; runs > 0; runs--) {
        double began = milliseconds();
        decode(&region);
        double taken = milliseconds() - began;
        least = taken < least ? taken : least;
    }
    fprintf(stderr, "%.2f\n", least);
    printf("P4\n%zu %zu\n", region.width, region.height);
    for (size_t y = 0; y < region.height; y++)
        fwrite(region.rows + (y + 2) * region.stride + MARGIN, 1, (region.width + 7) / 8, stdout);
    return 0;
}

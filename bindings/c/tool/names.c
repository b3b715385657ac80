#include "platform.h"

#include "names.h"

#include <string.h>

/* The region segment information, and its last byte. */
enum { REGION_SIZE = 17, REGION_FLAGS = 16 };

const char *name_of_type(unsigned type) {
    static const char *const names[64] = {
        [0] = "symbol dictionary",
        [4] = "intermediate text region",
        [6] = "immediate text region",
        [7] = "immediate lossless text region",
        [16] = "pattern dictionary",
        [20] = "intermediate halftone region",
        [22] = "immediate halftone region",
        [23] = "immediate lossless halftone region",
        [36] = "intermediate generic region",
        [38] = "immediate generic region",
        [39] = "immediate lossless generic region",
        [40] = "intermediate generic refinement region",
        [42] = "immediate generic refinement region",
        [43] = "immediate lossless generic refinement region",
        [48] = "page information",
        [49] = "end of page",
        [50] = "end of stripe",
        [51] = "end of file",
        [52] = "profiles",
        [53] = "tables",
        [54] = "colour palette",
        [62] = "extension",
    };
    return type < 64 && names[type] != NULL ? names[type] : "unknown type";
}

const char *name_of_operator(unsigned value) {
    static const char *const names[] = {"or", "and", "xor", "xnor", "replace"};
    return value < sizeof names / sizeof *names ? names[value] : "invalid operator";
}

bool region_of(const struct segment_list *list, const struct segment *segment, struct region *region) {
    if (!is_region(segment->type) || segment->length < REGION_SIZE)
        return false;
    /* The call refuses colours and unknown operators, which are shown too. It gets no flags, so it finds no fault. */
    uint8_t field[REGION_SIZE] = {0};
    hayro_jbig2_region_info info = {0};
    memcpy(field, list->bytes + segment->data, REGION_FLAGS);
    hayro_jbig2_region_get_info(field, sizeof field, &info);
    *region = (struct region){
        .width = info.width,
        .height = info.height,
        .x = (int32_t)info.x,
        .y = (int32_t)info.y,
        .operator_number = list->bytes[segment->data + REGION_FLAGS] & 7,
    };
    return true;
}

static void add_symbol_dictionary(struct text *text, const struct segment_list *list, const struct segment *segment) {
    enum { HUFFMAN = 1, REFINED = 2 };
    if (segment->length < 2)
        return;
    unsigned flags = number_in(list, segment, 0, 2), template = flags >> 10 & 3;
    bool is_huffman = flags & HUFFMAN;
    add_text(text, "%s", is_huffman ? "Huffman" : "arithmetic");
    if (!is_huffman)
        add_text(text, ", template %u", template);
    if (flags & REFINED)
        add_text(text, ", refinement and aggregation");
    size_t place = 2 + (is_huffman ? 0u : template == 0 ? 8u : 2u) + (flags & REFINED && !(flags >> 12 & 1) ? 4u : 0u);
    if (segment->length >= place + 8)
        add_text(text, ", %lu new symbols, %lu exported", (unsigned long)number_in(list, segment, place + 4, 4),
                 (unsigned long)number_in(list, segment, place, 4));
}

static void add_text_region(struct text *text, const struct segment_list *list, const struct segment *segment) {
    enum { HUFFMAN = 1, REFINED = 2 };
    if (segment->length < REGION_SIZE + 2)
        return;
    unsigned flags = number_in(list, segment, REGION_SIZE, 2);
    add_text(text, "%s", flags & HUFFMAN ? "Huffman" : "arithmetic");
    if (flags & REFINED)
        add_text(text, ", refined");
    size_t place = REGION_SIZE + 2 + (flags & HUFFMAN ? 2u : 0u) + (flags & REFINED && !(flags >> 15) ? 4u : 0u);
    if (segment->length >= place + 4)
        add_text(text, ", %lu instances", (unsigned long)number_in(list, segment, place, 4));
}

/* MMR, or the arithmetic coder with a template in bits 1 and 2. */
static void add_bitmap_coding(struct text *text, unsigned flags) {
    if (flags & 1)
        add_text(text, "MMR");
    else
        add_text(text, "arithmetic, template %u", flags >> 1 & 3);
}

static void add_generic_region(struct text *text, const struct segment_list *list, const struct segment *segment) {
    enum { MMR = 1, PREDICTION = 8, EXTENDED = 16 };
    if (segment->length < REGION_SIZE + 1)
        return;
    unsigned flags = number_in(list, segment, REGION_SIZE, 1);
    add_bitmap_coding(text, flags);
    if (!(flags & MMR) && flags & EXTENDED)
        add_text(text, ", extended");
    if (!(flags & MMR) && flags & PREDICTION)
        add_text(text, ", typical prediction");
}

static void add_refinement_region(struct text *text, const struct segment_list *list, const struct segment *segment) {
    if (segment->length < REGION_SIZE + 1)
        return;
    unsigned flags = number_in(list, segment, REGION_SIZE, 1);
    add_text(text, "arithmetic, template %u%s", flags & 1, flags & 2 ? ", typical prediction" : "");
}

static void add_halftone_region(struct text *text, const struct segment_list *list, const struct segment *segment) {
    if (segment->length < REGION_SIZE + 9)
        return;
    add_bitmap_coding(text, number_in(list, segment, REGION_SIZE, 1));
    add_text(text, ", grid of %lu by %lu", (unsigned long)number_in(list, segment, REGION_SIZE + 1, 4),
             (unsigned long)number_in(list, segment, REGION_SIZE + 5, 4));
}

static void add_pattern_dictionary(struct text *text, const struct segment_list *list, const struct segment *segment) {
    if (segment->length < 7)
        return;
    add_bitmap_coding(text, number_in(list, segment, 0, 1));
    add_text(text, ", %llu patterns of %lu by %lu", 1ull + number_in(list, segment, 3, 4),
             (unsigned long)number_in(list, segment, 1, 1), (unsigned long)number_in(list, segment, 2, 1));
}

void add_coding(struct text *text, const struct segment_list *list, const struct segment *segment) {
    switch (segment->type) {
    case SYMBOL_DICTIONARY:
        add_symbol_dictionary(text, list, segment);
        break;
    case PATTERN_DICTIONARY:
        add_pattern_dictionary(text, list, segment);
        break;
    case 4:
    case 6:
    case 7:
        add_text_region(text, list, segment);
        break;
    case 20:
    case 22:
    case 23:
        add_halftone_region(text, list, segment);
        break;
    case 36:
    case 38:
    case 39:
        add_generic_region(text, list, segment);
        break;
    case 40:
    case 42:
    case 43:
        add_refinement_region(text, list, segment);
        break;
    default:
        break;
    }
}

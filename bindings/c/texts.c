/* The version, and the texts of hayro_jbig2.h's answers. bindings/c/test compares these with those of the Rattle library. */
#include "hayro_jbig2.h"

/* The texts of crates/jbig2_base/specs/ErrorTexts.antt, written by tools/lists/errors --write */
static const char *const errors[] = {
    [HAYRO_JBIG2_PARSE_UNEXPECTED_EOF] = "unexpected end of input",
    [HAYRO_JBIG2_FORMAT_INVALID_HEADER] = "invalid JBIG2 file header",
    [HAYRO_JBIG2_FORMAT_RESERVED_BITS] = "reserved bits must be zero",
    [HAYRO_JBIG2_FORMAT_MISSING_PAGE_INFO] = "missing page information segment",
    [HAYRO_JBIG2_FORMAT_UNKNOWN_PAGE_HEIGHT] = "page height unknown with no stripe segments",
    [HAYRO_JBIG2_FORMAT_EMPTY_PAGE] = "page has zero width or height",
    [HAYRO_JBIG2_FORMAT_PAGE_COUNT_MISMATCH] = "page count in file header doesn't match",
    [HAYRO_JBIG2_FORMAT_INVALID_END_OF_PAGE] = "page without exactly one end of page segment",
    [HAYRO_JBIG2_SEGMENT_UNKNOWN_TYPE] = "unknown or reserved segment type",
    [HAYRO_JBIG2_SEGMENT_INVALID_REFERRED_COUNT] = "invalid referred-to segment count",
    [HAYRO_JBIG2_SEGMENT_INVALID_REFERENCE] = "segment refers to an invalid segment",
    [HAYRO_JBIG2_SEGMENT_INVALID_UNKNOWN_LENGTH] = "unknown segment length for this type",
    [HAYRO_JBIG2_SEGMENT_MISSING_END_MARKER] = "missing end marker for unknown-length region",
    [HAYRO_JBIG2_SEGMENT_MISSING_PATTERN_DICTIONARY] = "missing required pattern dictionary",
    [HAYRO_JBIG2_SEGMENT_MISSING_PAGE_ASSOCIATION] = "segment not associated with a page",
    [HAYRO_JBIG2_HUFFMAN_INVALID_CODE] = "invalid Huffman code",
    [HAYRO_JBIG2_HUFFMAN_INVALID_SELECTION] = "invalid Huffman table selection",
    [HAYRO_JBIG2_HUFFMAN_MISSING_TABLES] = "not enough referred Huffman tables",
    [HAYRO_JBIG2_HUFFMAN_UNEXPECTED_OOB] = "unexpected out-of-band value",
    [HAYRO_JBIG2_HUFFMAN_CONFLICTING_CODES] = "conflicting Huffman codes",
    [HAYRO_JBIG2_REGION_INVALID_COMBINATION_OPERATOR] = "invalid combination operator",
    [HAYRO_JBIG2_REGION_INVALID_DIMENSION] = "invalid dimension value",
    [HAYRO_JBIG2_REGION_INVALID_MMR_DATA] = "invalid MMR-encoded data",
    [HAYRO_JBIG2_REGION_GRAY_SCALE_OUT_OF_RANGE] = "gray-scale value exceeds pattern count",
    [HAYRO_JBIG2_TEMPLATE_INVALID] = "invalid template value",
    [HAYRO_JBIG2_TEMPLATE_INVALID_AT_PIXEL] = "invalid adaptive template pixel location",
    [HAYRO_JBIG2_SYMBOL_NO_SYMBOLS] = "no symbols available",
    [HAYRO_JBIG2_SYMBOL_TOO_MANY_SYMBOLS] = "symbol dictionary contains too many symbols",
    [HAYRO_JBIG2_SYMBOL_OUT_OF_RANGE] = "symbol ID out of range",
    [HAYRO_JBIG2_SYMBOL_UNEXPECTED_OOB] = "unexpected out-of-band value",
    [HAYRO_JBIG2_SYMBOL_INVALID] = "invalid symbol encountered",
    [HAYRO_JBIG2_SYMBOL_INVALID_STRIP_DELTA] = "strip delta overflow",
    [HAYRO_JBIG2_SYMBOL_TOO_MANY_INSTANCES] = "too many symbol instances",
    [HAYRO_JBIG2_OVERFLOW_BITMAP_DIMENSION] = "overflow in bitmap dimension computation",
    [HAYRO_JBIG2_OVERFLOW_GRID_DIMENSION] = "overflow in grid dimension computation",
    [HAYRO_JBIG2_OVERFLOW_PLACEMENT_COORDINATE] = "overflow in placement coordinate computation",
    [HAYRO_JBIG2_OVERFLOW_REFERENCE_OFFSET] = "overflow in reference offset computation",
    [HAYRO_JBIG2_OVERFLOW_INDEX] = "overflow in index computation",
    [HAYRO_JBIG2_OVERFLOW_SYMBOL_COUNT] = "too many symbols",
    [HAYRO_JBIG2_UNSUPPORTED] = "unsupported feature",
    [HAYRO_JBIG2_OUT_OF_MEMORY] = "out of memory",
};

const char *hayro_jbig2_error_text(uint32_t answer) {
    if (answer != HAYRO_JBIG2_OK && answer < sizeof errors / sizeof *errors)
        return errors[answer];
    switch (answer) {
    case HAYRO_JBIG2_OK:
        return "no error";
    case HAYRO_JBIG2_OTHER_SIZE:
        return "buffer of another size than the page";
    case HAYRO_JBIG2_NO_SUCH_PAGE:
        return "no such page";
    case HAYRO_JBIG2_OTHER_HANDLE:
        return "handle of another kind";
    case HAYRO_JBIG2_WORK_LIMIT:
        return "the limit of work is reached";
    case HAYRO_JBIG2_INVALID_SIDES:
        return "a side of the bitmap is 0 or above 65535";
    case HAYRO_JBIG2_NO_SUCH_TEMPLATE:
        return "no such template";
    default:
        return "no answer of this library";
    }
}

const char *hayro_jbig2_version(void) { return HAYRO_JBIG2_VERSION; }

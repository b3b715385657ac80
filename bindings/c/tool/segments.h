/* The segments of a file, an embedded page or globals, by their headers (T.88, 7.2 and Annex D). Nothing that is drawn
 * depends on this list but for the end of a line after the last segment: it is for `info` and for messages. */
#ifndef HAYRO_TOOL_SEGMENTS_H
#define HAYRO_TOOL_SEGMENTS_H

#include "hayro_jbig2.h"

#include <stdbool.h>
#include <stddef.h>
#include <stdint.h>

enum {
    SYMBOL_DICTIONARY = 0,
    PATTERN_DICTIONARY = 16,
    PAGE_INFORMATION = 48,
    END_OF_PAGE = 49,
    END_OF_STRIPE = 50,
    END_OF_FILE = 51,
    TABLES = 53,
    EXTENSION = 62
};

struct segment {
    size_t place, data; /* where its header and its data begin */
    size_t header_size;
    size_t length;   /* how many bytes of its data are there */
    uint64_t stated; /* how many its header says, or HAYRO_JBIG2_UNKNOWN_LENGTH */
    uint32_t number, page;
    uint8_t type;
    size_t referred_count; /* how many segments it refers to */
};

/* How much of a header could be read. */
enum known { KNOWS_NOTHING, KNOWS_NUMBER, KNOWS_TYPE, KNOWS_HEADER };

struct segment_list {
    const uint8_t *bytes;
    size_t size;
    struct segment *at;
    size_t count, room;
    uint32_t error;      /* what ended the list early, a number of hayro_jbig2.h, or 0 */
    struct segment last; /* the segment of that error, as far as its header was read */
    enum known known;
    /* All of them by number and by page, so that a file of many pages doesn't take the square of its length. */
    const struct segment **by_number, **by_page;
};

/* The segments of `size` bytes from `start` on. The bytes must stay until free_segments. */
void list_segments(struct segment_list *list, const uint8_t *bytes, size_t size, size_t start, bool has_random_access);
void free_segments(struct segment_list *list);

/* The header of a file (T.88, D.4). */
struct file_header {
    bool is_sequential, has_count;
    uint32_t page_count;
    size_t size;
};

/* Whether the bytes begin with such a header. */
bool has_file_header(const uint8_t *bytes, size_t size);
/* Reads it, and says whether it is whole. */
bool read_file_header(struct file_header *header, const uint8_t *bytes, size_t size);

/* The numbers that a segment refers to. The caller frees them. */
uint32_t *referred_numbers(const struct segment_list *list, const struct segment *segment);
/* The first segment with a number, or NULL. */
const struct segment *segment_of_number(const struct segment_list *list, uint32_t number);
/* The segments of a page in their order. */
const struct segment *const *segments_of_page(const struct segment_list *list, uint32_t page, size_t *count);

/* A big number of 1 to 4 bytes in a segment's data, or 0 past its end. */
uint32_t number_in(const struct segment_list *list, const struct segment *segment, size_t place, size_t size);

bool is_known_type(unsigned type);
bool is_region(unsigned type);

#define UNKNOWN_HEIGHT UINT32_C(0xFFFFFFFF)

/* What the page information says (T.88, 7.4.8). */
struct page_information {
    uint32_t width, height; /* height: UNKNOWN_HEIGHT where it is unknown */
    uint32_t x_resolution, y_resolution;
    uint8_t flags;
    uint16_t striping;
};

/* The first page information of a page, by the segments' numbers; false where there is none. */
bool page_information_of(const struct segment_list *list, uint32_t page, struct page_information *information);
/* How many pixels the pages state. Those whose height is unknown count up to the last stripe of all. */
uint64_t stated_pixels(const struct segment_list *list);
/* How many bytes there are without a line end after the last segment, which writers of PDF files may count in. */
size_t size_without_line_end(const struct segment_list *list);

#endif

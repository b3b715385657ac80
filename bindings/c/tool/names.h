/* What T.88 calls segments, and what their first bytes say. */
#ifndef HAYRO_TOOL_NAMES_H
#define HAYRO_TOOL_NAMES_H

#include "messages.h"
#include "segments.h"

/* The name of a segment's type (T.88, 7.3). */
const char *name_of_type(unsigned type);
/* The name of a combination operator (7.4.1.5). */
const char *name_of_operator(unsigned value);
/* How a segment's data are coded, and what they state besides, "arithmetic, template 0". Nothing where that isn't
 * known. */
void add_coding(struct text *text, const struct segment_list *list, const struct segment *segment);

/* The region segment information (7.4.1). */
struct region {
    uint32_t width, height;
    int32_t x, y;
    uint8_t operator_number;
};

bool region_of(const struct segment_list *list, const struct segment *segment, struct region *region);

#endif

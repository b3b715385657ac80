/* Lists pages and segments, and what is wrong where. */
#ifndef HAYRO_TOOL_INFO_H
#define HAYRO_TOOL_INFO_H

#include "words.h"

enum status print_info(const struct words *words);

#endif

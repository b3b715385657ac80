/* The command `write`. */
#ifndef HAYRO_TOOL_WRITE_H
#define HAYRO_TOOL_WRITE_H

#include "words.h"

enum status write_all(const struct words *words);

#endif

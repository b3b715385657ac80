/* Draws all pages of all inputs by several threads. */
#ifndef HAYRO_TOOL_JOBS_H
#define HAYRO_TOOL_JOBS_H

#include "words.h"

enum status draw_all(const struct words *words);

#endif

/* Files that have another name until they are whole. */
#ifndef HAYRO_TOOL_TEMPORARY_H
#define HAYRO_TOOL_TEMPORARY_H

#include <stdio.h>

/* Makes a file beside `name`, with the mode of that where it is there, or returns NULL with errno. Where it is made,
 * `*temporary` is its name, which stays until one of the next two calls. */
FILE *open_temporary(const char *name, const char **temporary);
/* The file has its name. */
void forget_temporary(const char **temporary);
void remove_temporary(const char **temporary);

/* Takes all of them away where a signal ends the program. To be called before there are threads. */
void watch_for_signals(void);
/* Takes all of them away before the program ends at once. None can be made or named any more: who tries, waits. */
void remove_temporaries_at_end(void);

#endif

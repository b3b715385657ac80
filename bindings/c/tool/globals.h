/* What embedded pages share: a list of segments that is decoded once. */
#ifndef HAYRO_TOOL_GLOBALS_H
#define HAYRO_TOOL_GLOBALS_H

#include "faults.h"

/* Takes over the bytes. */
struct globals *new_globals(struct bytes bytes);
void free_globals(struct globals *globals);

/* A handle for a thread that makes a page. The first call decodes the globals. False with the fault. */
bool share_globals(struct document *document, struct globals *globals, hayro_jbig2_globals **handle,
                   struct fault *fault);
/* A page needs them no longer. With the last one they are forgotten, but for their bytes and what is wrong there. */
void leave_globals(struct globals *globals);

#endif
